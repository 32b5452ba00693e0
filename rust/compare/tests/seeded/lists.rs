//! Decisions and reports by resolution lists: by all legal ones where policies
//! rival, and by lists of all kinds on bases of all kinds.

use compare::builder::BaseBuilder;
use compare::cases;
use compare::choices::events;
use compare::damage::*;
use compare::days::{losses, turn_days};
use compare::lent::Lent;
use compare::lists::{any_list, illegal_list, LEGAL};
use compare::lively::{full_base, lively_base};
use compare::questions::{any_context, context_in_range, random_question_by, Asked};
use compare::random::Random;
use compare::rivals::rival_base;
use compare::shown::{numbers, RECORD};
use compare::valid::{random_base, Size};
use compare::{
    agreed_decision, agreed_decision_by, agreed_report, agreed_report_by, permission_count,
};
use model::{Base, Context, Resolution};

use crate::seen::{Call, Seen};

pub fn compare(seen: &mut Seen) {
    rival_questions(2_500, |random, base, asked| {
        compare_decisions(seen, random, base, asked)
    });
    questions_of_all_kinds(seen);
    rival_reports(1_200, |random, records| {
        compare_reports(seen, random, records)
    });
    every_group(seen);
    reports_of_all_kinds(seen);
}

/// The first bases with rival policies, four questions each.
pub fn rival_questions(bases: usize, mut attempt: impl FnMut(&mut Random, &[u8], &Asked)) {
    let mut drawn = Random::new(151);
    let mut random = Random::new(152);
    for _ in 0..bases {
        let most_users = drawn.pick(&[2, 4, 8]);
        let records = rival_base(&mut drawn, most_users);
        let bytes = records.bytes();
        let base = Base::read(&bytes).expect("the base passes");
        for _ in 0..4 {
            let list = drawn.pick(&LEGAL);
            let resolution = Resolution::read(list).expect("the list is legal");
            let asked = random_question_by(&mut drawn, &records, &base, resolution);
            attempt(&mut random, &bytes, &asked);
        }
    }
}

/// Compares a question by every legal list and by one that isn't.
fn compare_decisions(seen: &mut Seen, random: &mut Random, base: &[u8], asked: &Asked) {
    let by_lists = LEGAL.map(|list| agreed_decision_by(base, list, asked));
    for answer in by_lists {
        seen.answer(Call::DecideBy, answer);
    }
    let without = agreed_decision(base, asked);
    seen.lists.decisions.note(&by_lists, &without);
    let refused = agreed_decision_by(base, &illegal_list(random), asked);
    assert_eq!(refused, 22);
    seen.answer(Call::DecideBy, refused);
    let base = Base::read(base).expect("the base passes");
    if let (Some(permission), true) = (base.permission(asked.permission), asked.at.in_range()) {
        let list = random.pick(&LEGAL);
        seen.lists
            .events(&events(&base, asked.at, list, permission));
    }
}

fn questions_of_all_kinds(seen: &mut Seen) {
    let mut random = Random::new(153);
    let mut compare = |base: &[u8], asked: &Asked| {
        let list = any_list(&mut random);
        let answer = agreed_decision_by(base, &list, asked);
        seen.answer(Call::DecideBy, answer);
    };
    cases::lively_bases(154, 1_000, &mut compare);
    cases::full_bases(155, 300, &mut compare);
    cases::heavy_bases(156, 300, &mut compare);
    cases::valid_bases(157, 1_000, &mut compare);
    cases::every_short_group(158, 20, &mut compare);
    cases::damaged_bases(159, 2_000, &mut compare);
    cases::single_fields(160, 3, &mut compare);
    cases::loose_bytes(161, 10_000, &mut compare);
}

/// The first bases with rival policies to report on.
pub fn rival_reports(bases: usize, mut attempt: impl FnMut(&mut Random, &BaseBuilder)) {
    let mut drawn = Random::new(162);
    let mut random = Random::new(163);
    for _ in 0..bases {
        let most_users = drawn.pick(&[3, 6, 12]);
        attempt(&mut random, &rival_base(&mut drawn, most_users));
    }
}

/// Compares the reports on a base by every legal list and without one; then one
/// by a list, in a context and into a buffer of any kind.
fn compare_reports(seen: &mut Seen, random: &mut Random, records: &BaseBuilder) {
    let base = records.bytes();
    let whole = RECORD * records.permissions.len();
    let at = context_in_range(random, records);
    let by_lists = LEGAL.map(|list| {
        let length = whole + random.pick(&[0, 1, 40]);
        let mut lent = Lent::noisy(random, length);
        let answer = agreed_report_by(&base, at, list, &mut lent);
        seen.answer(Call::ReportBy, answer.refusal);
        let numbers = numbers(&lent.buffer()[..whole]);
        let losses = losses(&base, at, Some(list), &numbers);
        seen.dated.losses_by_list(&losses);
        numbers
    });
    let mut lent = Lent::noisy(random, whole);
    agreed_report(&base, at, &mut lent);
    seen.lists.reports.note(&by_lists, &numbers(lent.buffer()));
    compare_any_report(seen, random, &base, records);
}

/// Compares a report on bytes that come from a base.
fn compare_any_report(seen: &mut Seen, random: &mut Random, base: &[u8], records: &BaseBuilder) {
    let whole = RECORD * permission_count(base);
    let any = random.below(300);
    let length = random.pick(&[whole, whole, whole.saturating_sub(1), any]);
    let (at, list) = (any_context(random, records), any_list(random));
    let mut lent = Lent::noisy(random, length);
    let answer = agreed_report_by(base, at, &list, &mut lent);
    seen.answer(Call::ReportBy, answer.refusal);
}

/// Bases with few users, whose numbers are found by asking about every group.
fn every_group(seen: &mut Seen) {
    let mut random = Random::new(164);
    for _ in 0..150 {
        let most_users = random.pick(&[1, 2, 3, 3, 4]);
        let records = rival_base(&mut random, most_users);
        let at = context_in_range(&mut random, &records);
        let base = records.bytes();
        for list in LEGAL {
            let length = RECORD * records.permissions.len();
            let mut lent = Lent::noisy(&mut random, length);
            let answer = agreed_report_by(&base, at, list, &mut lent);
            seen.answer(Call::ReportBy, answer.refusal);
            assert_eq!(numbers(lent.buffer()), by_trial(&base, at, list));
        }
    }
}

fn by_trial(base: &[u8], at: Context, list: &[u8]) -> Vec<u8> {
    let permissions = 0..permission_count(base) as u32;
    permissions
        .map(|permission| model::smallest_by_trial(base, at, Some(list), permission))
        .collect()
}

fn sound_base(random: &mut Random) -> BaseBuilder {
    match random.below(8) {
        0 => random_base(random, Size::Small),
        1 => random_base(random, Size::Any),
        2 => full_base(random),
        3 => lively_base(random, 24),
        4 => lively_base(random, 6),
        _ => rival_base(random, 6),
    }
}

/// Bases as they are, with changed bytes, with a table at its limit or above,
/// with a clause without conditions and with days turned; and any bytes.
fn reports_of_all_kinds(seen: &mut Seen) {
    let mut random = Random::new(165);
    for _ in 0..1_000 {
        let records = sound_base(&mut random);
        let image = records.image();
        for _ in 0..3 {
            compare_any_report(seen, &mut random, &image.bytes, &records);
            let damaged = any_damage(&mut random, &image);
            compare_any_report(seen, &mut random, &damaged, &records);
        }
        for spoil in [crowd, empty_clause, turn_days] {
            let mut spoilt = records.clone();
            spoil(&mut random, &mut spoilt);
            compare_any_report(seen, &mut random, &spoilt.bytes(), &records);
        }
    }
    for _ in 0..3 {
        let records = random_base(&mut random, Size::Small);
        field_by_field(&records.image(), |base| {
            compare_any_report(seen, &mut random, base, &records);
        });
    }
    let no_records = BaseBuilder::new(1);
    for _ in 0..2_000 {
        let base = random_bytes(&mut random);
        compare_any_report(seen, &mut random, &base, &no_records);
    }
}
