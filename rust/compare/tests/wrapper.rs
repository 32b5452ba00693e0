//! The wrapper's typed functions say what the library's own answers say.

use compare::batches::Batch;
use compare::builder::{BaseBuilder, User};
use compare::cases::*;
use compare::clashing::clashing_base;
use compare::lists::{ILLEGAL, LEGAL};
use compare::lively::full_base;
use compare::parameters::Checked;
use compare::products::random_parameters;
use compare::queries::{any_room, batch_for, loose_batch};
use compare::questions::{at_date, at_minute, random_question, Asked};
use compare::random::Random;
use compare::rivals::rival_base;
use compare::shop::small_shop;
use compare::trust::{Statement, Trust};
use compare::vouchers::{any_requester, loose_trust, trust_for, trust_in};
use compare::{library_context, permission_count};
use model::{Base, Reading};
use release::answers::{self, Answer};
use release::example::SMALL_SHOP;
use release::{
    Context, Entry, Permission, Query, Refusal, Register, Report, Resolution, Rule, Sheet,
    SHEET_BYTES,
};

/// A result's refusal as a number, 0 for none.
fn number<T>(result: &Result<T, Refusal>) -> u32 {
    result.as_ref().err().map_or(0, |refusal| refusal.number())
}

/// A result as the answer that it stands for.
fn answer<T>(result: &Result<T, Refusal>, count: impl Fn(&T) -> usize) -> Answer {
    Answer {
        refusal: number(result),
        count: result.as_ref().map_or(0, count) as u32,
    }
}

fn expect_check(base: &[u8]) {
    assert_eq!(number(&release::check(base)), answers::check(base));
}

fn expect_decision(base: &[u8], at: Context, asked: &Asked) {
    let expected = answers::decide(base, asked.permission, at, &asked.group);
    let decided = release::decide_bytes(base, asked.permission, at, &asked.group);
    assert_eq!(number(&decided), expected);
    let pairs = asked.group.chunks_exact(2);
    if pairs.remainder().is_empty() {
        let group: Vec<Entry> = pairs.map(|pair| Entry::new(pair[0], pair[1])).collect();
        let decided = release::decide(base, asked.permission, at, &group);
        assert_eq!(number(&decided), expected);
    }
}

/// By lists, legal and not: the library's own answers, and the model's.
fn expect_by_lists(base: &[u8], asked: &Asked) {
    for list in LEGAL.into_iter().chain(ILLEGAL) {
        let typed = Resolution::from_bytes(list);
        assert_eq!(typed.is_some(), LEGAL.contains(&list));
        expect_decision_by(base, asked, list, typed);
        expect_report_by(base, asked.at, list, typed);
    }
}

fn expect_decision_by(base: &[u8], asked: &Asked, list: &[u8], typed: Option<Resolution>) {
    let Asked {
        permission, group, ..
    } = asked;
    let at = library_context(asked.at);
    let expected = answers::decide_by(base, *permission, at, list, group);
    let by_model = model::decide_by(base, *permission, asked.at, list, group);
    assert_eq!(expected, u32::from(by_model));
    let decided = release::decide_by_bytes(base, *permission, at, list, group);
    assert_eq!(number(&decided), expected);
    let pairs = group.chunks_exact(2);
    if let (Some(resolution), []) = (typed, pairs.remainder()) {
        let group: Vec<Entry> = pairs.map(|pair| Entry::new(pair[0], pair[1])).collect();
        let by_type = release::decide_by(base, *permission, at, resolution, &group);
        assert_eq!(by_type, decided);
    }
}

fn expect_report_by(base: &[u8], at: model::Context, list: &[u8], typed: Option<Resolution>) {
    let mut out = vec![0; release::PERMISSION_BYTES * permission_count(base)];
    let expected = answers::report_by(base, library_context(at), list, &mut out);
    let mut by_model = out.clone();
    let by_model = model::report_by(base, at, list, &mut by_model);
    let by_model = (u32::from(by_model.refusal), by_model.count);
    assert_eq!((expected.refusal, expected.count), by_model);
    let mut again = vec![7; out.len()];
    let written = release::report_by_into(base, library_context(at), list, &mut again);
    assert_eq!(answer(&written, |count| *count), expected);
    if let Some(resolution) = typed {
        let reported = release::report_by(base, library_context(at), resolution);
        assert_eq!(answer(&reported, Report::count), expected);
        if let Ok(report) = reported {
            assert_eq!(report.bytes(), out);
            assert_eq!(told(&report), again);
        }
    }
}

/// For a requester, by registers made for the question or the report and by any
/// bytes: the library's own answers, and the model's.
fn expect_vouched(random: &mut Random, base: &[u8], asked: &Asked) {
    let (trust, requester, in_requester) = match Base::read(base) {
        Ok(base) => {
            let requester = any_requester(random, &base);
            let in_requester = trust_in(random, &base, asked.at.date, requester);
            (trust_for(random, &base, asked), requester, in_requester)
        }
        Err(_) => (loose_trust(random), 0, loose_trust(random)),
    };
    for trust in [trust, loose_trust(random)] {
        expect_decision_vouched(base, asked, &trust);
    }
    for trust in [in_requester, loose_trust(random)] {
        expect_report_vouched(base, asked.at, &trust, requester);
    }
}

fn expect_decision_vouched(base: &[u8], asked: &Asked, trust: &Trust) {
    let Asked {
        permission, group, ..
    } = asked;
    let Trust {
        register,
        threshold,
    } = trust;
    let at = library_context(asked.at);
    let expected = answers::decide_vouched(base, *permission, at, register, *threshold, group);
    let by_model = model::decide_vouched(base, *permission, asked.at, register, *threshold, group);
    assert_eq!(expected, u32::from(by_model));
    let decided = release::decide_vouched_bytes(base, *permission, at, register, *threshold, group);
    assert_eq!(number(&decided), expected);
    let typed = Register::from_bytes(register);
    assert_eq!(typed.is_some(), register.len() % 8 == 0);
    let pairs = group.chunks_exact(2);
    if let (Some(typed), []) = (typed, pairs.remainder()) {
        expect_same_register(trust, &typed);
        let group: Vec<Entry> = pairs.map(|pair| Entry::new(pair[0], pair[1])).collect();
        let by_type = release::decide_vouched(base, *permission, at, &typed, *threshold, &group);
        assert_eq!(by_type, decided);
    }
}

/// The statements that the wrapper reads are those of the bytes.
fn expect_same_register(trust: &Trust, typed: &Register) {
    let statements = trust.statements().into_iter();
    let statements = statements.map(|statement| {
        let Statement {
            issuer,
            requester,
            permission,
            trust,
            first_day,
            last_day,
        } = statement;
        let all_days = release::Statement::new(issuer, requester, permission, trust);
        all_days.on_days(first_day, last_day)
    });
    assert_eq!(statements.collect::<Register>(), *typed);
}

fn expect_report_vouched(base: &[u8], at: model::Context, trust: &Trust, requester: u32) {
    let Trust {
        register,
        threshold,
    } = trust;
    let (threshold, context) = (*threshold, library_context(at));
    let mut out = vec![0; release::PERMISSION_BYTES * permission_count(base)];
    let expected = answers::report_vouched(base, context, register, threshold, requester, &mut out);
    let mut by_model = out.clone();
    let by_model = model::report_vouched(base, at, register, threshold, requester, &mut by_model);
    let by_model = (u32::from(by_model.refusal), by_model.count);
    assert_eq!((expected.refusal, expected.count), by_model);
    let mut again = vec![7; out.len()];
    let written =
        release::report_vouched_into(base, context, register, threshold, requester, &mut again);
    assert_eq!(answer(&written, |count| *count), expected);
    if let Some(typed) = Register::from_bytes(register) {
        let reported = release::report_vouched(base, context, &typed, threshold, requester);
        assert_eq!(answer(&reported, Report::count), expected);
        if let Ok(report) = reported {
            assert_eq!(report.bytes(), out);
            assert_eq!(told(&report), again);
        }
    }
}

/// In batches made for the question and of any bytes: the library's own answers, and
/// the model's.
fn expect_batches(random: &mut Random, base: &[u8], asked: &Asked) {
    let made = Base::read(base).map(|base| batch_for(random, &base, asked));
    for batch in made.into_iter().chain([loose_batch(random, asked.at)]) {
        let room = any_room(random, &batch);
        expect_batch_into(base, &batch, room);
        if batch.queries.len() == batch.queries().len() * release::QUERY_BYTES {
            expect_typed_batch(base, &batch);
        }
    }
}

fn expect_batch_into(base: &[u8], batch: &Batch, room: usize) {
    let at = library_context(batch.at);
    let [mut expected, mut by_model, mut found] = [0; 3].map(|_| vec![7; room]);
    let answer = answers::batch(base, at, &batch.queries, &mut expected);
    let model = model::batch(base, batch.at, &batch.queries, &mut by_model);
    assert_eq!((answer, &expected), (model.into(), &by_model));
    let done = release::batch_into(base, at, &batch.queries, &mut found);
    assert_eq!((number(&done), &found), (answer, &expected));
}

fn expect_typed_batch(base: &[u8], batch: &Batch) {
    let at = library_context(batch.at);
    let queries = batch.queries().iter().copied().map(Query::from_bytes);
    let queries: Vec<Query> = queries.collect();
    let bytes: Vec<u8> = queries.iter().flat_map(|query| query.bytes()).collect();
    assert_eq!(bytes, batch.queries);
    let mut expected = vec![7; queries.len()];
    let answer = answers::batch(base, at, &batch.queries, &mut expected);
    let answers = release::batch(base, at, &queries);
    assert_eq!(number(&answers), answer);
    if let Ok(answers) = answers {
        assert_eq!(answers.len(), queries.len());
        let answers: Vec<Result<(), Refusal>> = answers.collect();
        let numbers = answers.iter().map(number);
        assert!(numbers.eq(expected.into_iter().map(u32::from)));
        let pairs = queries.iter().zip(answers);
        pairs.for_each(|(query, answer)| expect_remade(base, at, query, answer));
    }
}

/// A query made of what the wrapper reads in one gets the same answer, and the
/// decision on it too.
fn expect_remade(base: &[u8], at: Context, query: &Query, answer: Result<(), Refusal>) {
    if query.bytes()[1] <= 6 {
        let entries: Vec<Entry> = query.entries().collect();
        let remade = Query::new(query.permission(), &entries);
        let mut again = release::batch(base, at, &[remade]).expect("the batch was answered");
        assert_eq!(again.next(), Some(answer));
        let decided = release::decide(base, query.permission().into(), at, &entries);
        assert_eq!(decided, answer);
    }
}

/// The bytes that a report's permissions have by what they say.
fn told(report: &Report) -> Vec<u8> {
    let part = |permission: Permission| {
        let mut part = vec![permission.approvers() as u8];
        part.extend(permission.entries().flat_map(Entry::bytes));
        part.resize(release::PERMISSION_BYTES, 255);
        part
    };
    report.permissions().flat_map(part).collect()
}

fn expect_report(base: &[u8], at: Context) {
    let mut out = vec![0; release::PERMISSION_BYTES * permission_count(base)];
    let expected = answers::report(base, at, &mut out);
    let reported = release::report(base, at);
    assert_eq!(answer(&reported, Report::count), expected);
    if let Ok(report) = reported {
        assert_eq!(report.bytes(), out);
        assert_eq!(told(&report), out);
        assert!(report
            .permissions()
            .map(|p| p.number())
            .eq(0..out.len() as u32 / 13));
    }
    out.fill(7);
    let written = release::report_into(base, at, &mut out);
    assert_eq!(answer(&written, |count| *count), expected);
}

fn expect_conflicts(base: &[u8]) {
    let mut out = vec![0; 8_400];
    let expected = answers::conflicts(base, &mut out);
    let listed = release::conflicts(base);
    assert_eq!(answer(&listed, Vec::len), expected);
    let count = release::conflict_count(base);
    assert_eq!(answer(&count, |count| *count), expected);
    if let Ok(list) = listed {
        let bytes: Vec<u8> = list.iter().flat_map(|conflict| conflict.bytes()).collect();
        assert_eq!(bytes, out[..bytes.len()]);
        assert!(list.is_sorted_by(|one, other| one < other));
    }
}

/// The bound for weights in and out of range, whether the group comes as entries
/// or as bytes: the library's own answer, and the model's.
fn expect_bounds(base: &[u8], policy: u32, group: &[u8]) {
    let pairs = group.chunks_exact(2);
    let whole = pairs.remainder().is_empty();
    let entries: Vec<Entry> = pairs.map(|pair| Entry::new(pair[0], pair[1])).collect();
    for weight in [0, 1, 2, 3, 4, 5, 6, 256, 257, u32::MAX] {
        let expected = answers::bound(base, policy, weight, group);
        let by_model = model::bound(base, policy, weight, group);
        let by_model = (u32::from(by_model.refusal), by_model.count);
        assert_eq!((expected.refusal, expected.count), by_model);
        let bound = release::bound_bytes(base, policy, weight, group);
        assert_eq!(answer(&bound, |bound| *bound as usize), expected);
        if whole {
            assert_eq!(release::bound(base, policy, weight, &entries), bound);
        }
    }
}

/// The check of one parameter: the library's own answer, and the model's.
fn expect_parameter(checked: Checked) {
    let Checked { parameter, roles } = checked;
    let expected = answers::parameter(parameter, roles);
    let by_model = checked.by_model(Reading::Paper);
    assert_eq!((expected.refusal, expected.count), by_model);
    let tried = release::check_parameter(parameter, roles);
    assert_eq!(number(&tried.result), expected.refusal);
    assert_eq!(tried.tried, expected.count);
}

/// A sheet in the wrapper's hands, and the bytes that the library's own calls
/// get.
struct SheetTwice {
    sheet: Sheet,
    bytes: [u8; SHEET_BYTES],
}

impl SheetTwice {
    /// A refused opening's sheet is in the bytes alone: both go on with these.
    fn open(base: &[u8], permission: u32) -> SheetTwice {
        let mut bytes = [7; SHEET_BYTES];
        let expected = answers::sheet_open(base, permission, &mut bytes);
        let opened = Sheet::open(base, permission);
        assert_eq!(number(&opened), expected);
        let sheet = opened.unwrap_or(Sheet::from_bytes(bytes));
        SheetTwice { sheet, bytes }
    }

    fn from_bytes(bytes: [u8; SHEET_BYTES]) -> SheetTwice {
        let sheet = Sheet::from_bytes(bytes);
        SheetTwice { sheet, bytes }
    }

    /// The same answer, whether the signature comes as an entry or as numbers.
    fn sign(&mut self, base: &[u8], entry: Entry) {
        let (user, role) = (entry.user.into(), entry.role.into());
        let expected = answers::sheet_sign(base, user, role, &mut self.bytes);
        let mut by_numbers = self.sheet.clone();
        let signed = by_numbers.sign_numbers(base, user, role);
        assert_eq!(number(&signed), expected);
        assert_eq!(number(&self.sheet.sign(base, entry)), expected);
        assert_eq!(by_numbers, self.sheet);
    }

    /// Numbers of more than a byte.
    fn sign_beyond(&mut self, base: &[u8], entry: Entry) {
        let (user, role) = (entry.user.into(), entry.role.into());
        for (user, role) in [(256 + user, role), (user, 256 + role)] {
            let expected = answers::sheet_sign(base, user, role, &mut self.bytes);
            let signed = self.sheet.sign_numbers(base, user, role);
            assert_eq!(number(&signed), expected);
        }
    }

    /// The same answer, whether the user comes as a byte or as a number.
    fn withdraw(&mut self, user: u8) {
        let expected = answers::sheet_withdraw(user.into(), &mut self.bytes);
        let mut by_number = self.sheet.clone();
        let withdrawn = by_number.withdraw_number(user.into());
        assert_eq!(number(&withdrawn), expected);
        assert_eq!(number(&self.sheet.withdraw(user)), expected);
        assert_eq!(by_number, self.sheet);
    }

    /// A number of more than a byte.
    fn withdraw_beyond(&mut self, user: u8) {
        let user = 256 + u32::from(user);
        let expected = answers::sheet_withdraw(user, &mut self.bytes);
        assert_eq!(number(&self.sheet.withdraw_number(user)), expected);
    }

    /// The same bytes, and what the wrapper reads in them.
    fn expect_same(&self) {
        assert_eq!(self.sheet.to_bytes(), self.bytes);
        assert_eq!(self.sheet.permission(), self.bytes[0]);
        let held = usize::from(self.bytes[1]).min(6);
        let entries: Vec<u8> = self.sheet.entries().flat_map(Entry::bytes).collect();
        assert_eq!(entries, self.bytes[2..2 + 2 * held]);
    }

    /// The same answer, and that of the decision.
    fn expect_asked(&self, base: &[u8], at: Context) {
        let asked = self.sheet.ask(base, at);
        assert_eq!(number(&asked), answers::sheet_ask(base, at, &self.bytes));
        let group: Vec<Entry> = self.sheet.entries().collect();
        let permission = self.sheet.permission().into();
        assert_eq!(asked, release::decide(base, permission, at, &group));
    }
}

/// The group's entries sign one by one, of a long one the first 20; then their
/// users withdraw, the second of each two first.
fn expect_signings(base: &[u8], at: Context, mut sheet: SheetTwice, group: &[u8]) {
    sheet.expect_same();
    sheet.expect_asked(base, at);
    let pairs = group.chunks_exact(2).take(20);
    for pair in pairs.clone() {
        let entry = Entry::new(pair[0], pair[1]);
        sheet.sign_beyond(base, entry);
        sheet.sign(base, entry);
        sheet.expect_same();
        sheet.expect_asked(base, at);
    }
    let users = pairs.map(|pair| pair[0]);
    let every_second = users.clone().skip(1).step_by(2);
    for user in every_second.chain(users) {
        sheet.withdraw_beyond(user);
        sheet.withdraw(user);
        sheet.expect_same();
        sheet.expect_asked(base, at);
    }
}

/// The group signs a new sheet for the permission, and one made of its bytes,
/// and withdraws.
fn expect_sheets(base: &[u8], at: Context, asked: &Asked) {
    let opened = SheetTwice::open(base, asked.permission);
    expect_signings(base, at, opened, &asked.group);
    let mut bytes = [0; SHEET_BYTES];
    for (byte, of_group) in bytes.iter_mut().zip(&asked.group) {
        *byte = *of_group;
    }
    let made = SheetTwice::from_bytes(bytes);
    expect_signings(base, at, made, &asked.group);
}

fn expect_all(base: &[u8], asked: &Asked) {
    let at = library_context(asked.at);
    expect_check(base);
    expect_decision(base, at, asked);
    expect_report(base, at);
    expect_conflicts(base);
    expect_bounds(base, asked.permission, &asked.group);
    expect_sheets(base, at, asked);
}

#[test]
fn sound_bases() {
    lively_bases(81, 100, expect_all);
    full_bases(82, 10, expect_all);
    valid_bases(83, 100, expect_all);
}

#[test]
fn other_bytes() {
    damaged_bases(84, 200, expect_all);
    loose_bytes(85, 2_000, expect_all);
}

#[test]
fn by_lists() {
    lively_bases(87, 20, expect_by_lists);
    full_bases(88, 2, expect_by_lists);
    damaged_bases(89, 20, expect_by_lists);
    loose_bytes(90, 200, expect_by_lists);
    let mut random = Random::new(91);
    for _ in 0..100 {
        let records = rival_base(&mut random, 6);
        let base = Base::read(&records.bytes()).expect("the base passes");
        let asked = random_question(&mut random, &records, &base);
        expect_by_lists(&records.bytes(), &asked);
    }
}

#[test]
fn by_registers() {
    let mut random = Random::new(94);
    let mut compare = |base: &[u8], asked: &Asked| expect_vouched(&mut random, base, asked);
    lively_bases(95, 200, &mut compare);
    full_bases(96, 5, &mut compare);
    valid_bases(97, 50, &mut compare);
    damaged_bases(98, 50, &mut compare);
    loose_bytes(99, 500, &mut compare);
}

#[test]
fn by_batches() {
    let mut random = Random::new(371);
    let mut compare = |base: &[u8], asked: &Asked| expect_batches(&mut random, base, asked);
    lively_bases(372, 100, &mut compare);
    full_bases(373, 5, &mut compare);
    valid_bases(374, 50, &mut compare);
    damaged_bases(375, 50, &mut compare);
    loose_bytes(376, 500, &mut compare);
}

#[test]
fn parameters() {
    random_parameters(92, 10_000, expect_parameter);
    for roles in 0..=9 {
        for parameter in 0..1_000 {
            expect_parameter(Checked { parameter, roles });
        }
    }
}

#[test]
fn many_conflicts() {
    let mut random = Random::new(86);
    let bases = std::iter::repeat_with(|| clashing_base(&mut random).bytes());
    bases.take(1_000).for_each(|base| expect_conflicts(&base));
}

/// Eight clerks sign: the last two find the sheet full.
#[test]
fn a_full_sheet() {
    let shop = BaseBuilder {
        users: [7; 8].map(User::always).to_vec(),
        ..small_shop()
    };
    let clerks: Vec<[u8; 2]> = (0..8).map(|user| [user, 2]).collect();
    expect_all(&shop.bytes(), &Asked::new(0, at_minute(600), &clerks));
}

#[test]
fn the_shortest_base_and_no_bytes() {
    for base in [BaseBuilder::new(1).bytes(), vec![]] {
        expect_all(&base, &Asked::new(0, at_minute(0), &[]));
        expect_by_lists(&base, &Asked::new(0, at_minute(0), &[]));
        expect_vouched(
            &mut Random::new(0),
            &base,
            &Asked::new(0, at_minute(0), &[]),
        );
        expect_batches(
            &mut Random::new(1),
            &base,
            &Asked::new(0, at_minute(0), &[]),
        );
    }
}

#[test]
fn the_example_is_the_papers() {
    assert_eq!(small_shop().bytes(), SMALL_SHOP);
}

#[test]
fn the_longest_base_has_every_table_full() {
    let full = full_base(&mut Random::new(93)).bytes();
    assert_eq!(full.len(), release::LONGEST_BASE);
    assert_eq!(release::check(&full), Ok(()));
    let longer = [&[0], &full[..]].concat();
    assert_eq!(release::check(&longer), Err(Refusal::Length));
}

/// The manager's last day is 299. Manager and clerk are granted up to it.
#[test]
fn a_user_out_of_date() {
    let mut shop = small_shop();
    shop.users[0].set_days(0, 299);
    let base = shop.bytes();
    let group = [Entry::new(0, 0), Entry::new(2, 2)];
    let mut sheet = Sheet::open(&base, 0).expect("the permission is there");
    for entry in group {
        assert_eq!(sheet.sign(&base, entry), Ok(()));
    }
    for (date, refusal) in [(299, 0), (300, 24), (65_536, 11)] {
        let at = Context::new(600, 0, 0, date);
        let answers = [
            release::decide(&base, 0, at, &group),
            release::decide_by(&base, 0, at, Resolution::by(Rule::LaterDay), &group),
            sheet.ask(&base, at),
        ];
        assert_eq!(answers.map(|answer| number(&answer)), [refusal; 3]);
        let asked = Asked::new(0, at_date(600, date), &[[0, 0], [2, 2]]);
        expect_all(&base, &asked);
        expect_by_lists(&base, &asked);
    }
    let at = Context::new(600, 0, 0, 300);
    let out_of_date = release::decide(&base, 0, at, &group);
    assert_eq!(out_of_date, Err(Refusal::OutOfDate));
}
