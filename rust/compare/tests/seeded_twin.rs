//! Compares the tuned twin with the library, and for a requester with the model
//! too. Which smallest group a report shows is free.

use compare::batches::Batch;
use compare::bounds::Changed;
use compare::builder::{BaseBuilder, OLD_LETTERS};
use compare::capped::capped_base;
use compare::changes::random_change;
use compare::clashing::clashing_base;
use compare::damage::*;
use compare::days::turn_days;
use compare::lent::Lent;
use compare::lists::{any_list, List};
use compare::lively::{full_base, heavy_base, lively_base};
use compare::mornings::{loose_sheets, morning, Morning};
use compare::products::random_parameters;
use compare::queries::{any_room, batch_for, loose_batch};
use compare::questions::{any_context, any_permission, random_question, Asked};
use compare::random::Random;
use compare::rivals::rival_base;
use compare::sheets::SheetCall;
use compare::shown::{self, RECORD};
use compare::sparse::sparse_base;
use compare::trust::Trust;
use compare::valid::{random_base, Size};
use compare::vouchers::{any_requester, loose_trust, trust_for, trust_in};
use compare::{agreed_decision_vouched, agreed_report_vouched};
use compare::{library_decision, library_report, permission_count};
use model::{Base, Context};
use twin::worst;

/// Bytes of a sheet.
const SHEET: usize = 14;

/// Asserts that the two agree on the check, the report and the conflict list.
fn compare_calls(random: &mut Random, base: &[u8], at: Context) {
    assert_eq!(u32::from(twin::check(base)), release::answers::check(base));
    let length = random.pick(&[0, 12, 13, 50, 16 * RECORD, 16 * RECORD + 9]);
    compare_report(random, base, at, None, length);
    let list = any_list(random);
    compare_report(random, base, at, Some(&list), length);

    let whole = 3 * release::answers::conflicts(base, &mut []).count as usize;
    let length = random.pick(&[whole, whole + 7, whole.saturating_sub(1)]);
    let mut by_library = Lent::noisy(random, length);
    let mut by_twin = by_library.clone();
    let library = release::answers::conflicts(base, by_library.buffer());
    let twin = twin::conflicts(base, by_twin.buffer());
    assert_eq!((u32::from(twin.refusal), twin.count), numbers(library));
    assert_eq!(by_twin.first_difference(&by_library), None);
}

/// Asserts that the two agree on the report into so many bytes. The library's
/// refusal.
fn compare_report(random: &mut Random, base: &[u8], at: Context, list: List, length: usize) -> u32 {
    let mut by_library = Lent::noisy(random, length);
    let mut by_twin = by_library.clone();
    let library = library_report(base, at, list, by_library.buffer());
    let twin = match list {
        None => twin::report(base, at, by_twin.buffer()),
        Some(list) => twin::report_by(base, at, list, by_twin.buffer()),
    };
    assert_eq!((u32::from(twin.refusal), twin.count), numbers(library));
    if library.refusal == 0 {
        let written = RECORD * permission_count(base);
        let (ours, theirs) = (by_library.buffer(), by_twin.buffer());
        let (ours, theirs) = (&ours[..written], &mut theirs[..written]);
        assert_eq!(shown::numbers(ours), shown::numbers(theirs));
        theirs.copy_from_slice(ours);
    }
    assert_eq!(by_twin.first_difference(&by_library), None);
    library.refusal
}

fn numbers(answer: release::answers::Answer) -> (u32, u32) {
    (answer.refusal, answer.count)
}

/// Asserts that the two decide alike, without a list and by one.
fn compare_decision(random: &mut Random, base: &[u8], asked: &Asked) {
    let Asked {
        permission,
        at,
        group,
    } = asked;
    let by_twin = twin::decide(base, *permission, *at, group);
    assert_eq!(u32::from(by_twin), library_decision(base, None, asked));
    let list = any_list(random);
    let by_twin = twin::decide_by(base, *permission, *at, &list, group);
    let by_library = library_decision(base, Some(&list), asked);
    assert_eq!(u32::from(by_twin), by_library);
}

/// Asserts that all decide alike for the user of the first entry as requester.
fn compare_vouched(random: &mut Random, base: &[u8], asked: &Asked) {
    let trust = match Base::read(base) {
        Ok(base) => trust_for(random, &base, asked),
        Err(_) => loose_trust(random),
    };
    agreed_decision_vouched(base, &trust, asked);
}

/// Asserts that all report alike for a requester. Their refusal.
fn compare_report_vouched(random: &mut Random, base: &[u8], at: Context) -> u8 {
    let (trust, requester) = any_trust(random, base, at);
    let whole = RECORD * permission_count(base);
    let length = random.pick(&[whole, whole, whole + 9, whole.saturating_sub(1)]);
    let mut lent = Lent::noisy(random, length);
    agreed_report_vouched(base, at, &trust, requester, &mut lent).refusal
}

fn any_trust(random: &mut Random, base: &[u8], at: Context) -> (Trust, u32) {
    match Base::read(base) {
        Ok(base) => {
            let requester = any_requester(random, &base);
            (trust_in(random, &base, at.date, requester), requester)
        }
        Err(_) => (loose_trust(random), random.below(30) as u32),
    }
}

/// Asserts that the two answer a batch alike and leave the same bytes.
fn compare_batch(random: &mut Random, base: &[u8], batch: &Batch) {
    let room = any_room(random, batch);
    let mut by_library = Lent::noisy(random, room);
    let mut by_twin = by_library.clone();
    let library = batch.by_library(base, by_library.buffer());
    let twin = twin::batch(base, batch.at, &batch.queries, by_twin.buffer());
    assert_eq!(u32::from(twin), library);
    assert_eq!(by_twin.first_difference(&by_library), None);
}

/// Asserts that the two give the same bound.
fn compare_bound(base: &[u8], changed: &Changed) {
    assert_eq!(changed.by_twin(base), changed.by_library(base));
}

/// Asserts that the two answer a call on a sheet alike and leave the same bytes.
fn compare_sheets(base: &[u8], call: SheetCall, by_library: &mut Lent) {
    let mut by_twin = by_library.clone();
    let library = call.by_library(base, by_library.sheet());
    let twin = call.by_twin(base, by_twin.sheet());
    assert_eq!(u32::from(twin), library);
    assert_eq!(by_twin.first_difference(by_library), None);
}

fn sound_base(random: &mut Random) -> BaseBuilder {
    match random.below(18) {
        0 => random_base(random, Size::Small),
        1 => random_base(random, Size::Any),
        2 => full_base(random),
        3 => heavy_base(random),
        4..=6 => sparse_base(random, 24),
        7..=9 => clashing_base(random),
        10 => rival_base(random, 24),
        11..=14 => {
            let roles = random.between(1, 8);
            capped_base(random, roles)
        }
        _ => lively_base(random, 24),
    }
}

#[test]
fn seeded_comparison() {
    let mut random = Random::new(81);
    for _ in 0..2_000 {
        let records = sound_base(&mut random);
        let image = records.image();
        let at = any_context(&mut random, &records);
        compare_calls(&mut random, &image.bytes, at);
        compare_report_vouched(&mut random, &image.bytes, at);
        let base = Base::read(&image.bytes).expect("the base passes");
        let mut turned = records.clone();
        turn_days(&mut random, &mut turned);
        for refused in [turned.bytes(), records.old_bytes(OLD_LETTERS)] {
            compare_calls(&mut random, &refused, at);
        }
        for _ in 0..4 {
            let asked = random_question(&mut random, &records, &base);
            compare_decision(&mut random, &image.bytes, &asked);
            compare_vouched(&mut random, &image.bytes, &asked);
            let changed = random_change(&mut random, &base);
            compare_bound(&image.bytes, &changed);
            let damaged = any_damage(&mut random, &image);
            compare_calls(&mut random, &damaged, at);
            compare_decision(&mut random, &damaged, &asked);
            compare_vouched(&mut random, &damaged, &asked);
            compare_report_vouched(&mut random, &damaged, at);
            compare_bound(&damaged, &changed);
        }
    }
}

#[test]
fn loose_bytes() {
    let mut random = Random::new(82);
    for _ in 0..2_000 {
        let base = random_bytes(&mut random);
        let at = any_context(&mut random, &BaseBuilder::new(1));
        compare_calls(&mut random, &base, at);
        let permission = any_permission(&mut random, 16);
        let asked = Asked::new(permission, at, &[[0, 0]]);
        compare_decision(&mut random, &base, &asked);
        compare_vouched(&mut random, &base, &asked);
        compare_report_vouched(&mut random, &base, at);
        compare_bound(&base, &Changed::new(permission, 1, &[[0, 0]]));
        let calls = [
            SheetCall::Open { permission },
            SheetCall::Sign { user: 0, role: 0 },
            SheetCall::Ask { at },
        ];
        for call in calls {
            compare_sheets(&base, call, &mut Lent::noisy(&mut random, SHEET));
        }
    }
}

#[test]
fn worst_bases() {
    let mut random = Random::new(83);
    for (name, plan) in worst::all() {
        let at = compare::questions::at_minute(0);
        for list in [None, Some(&[0, 1, 2][..])] {
            let refusal = compare_report(&mut random, &plan.bytes(), at, list, 16 * RECORD);
            assert_eq!(refusal, 0, "{name}");
        }
        for _ in 0..4 {
            compare_report_vouched(&mut random, &plan.bytes(), at);
        }
    }
}

#[test]
fn mornings_on_a_sheet() {
    let mut random = Random::new(84);
    for _ in 0..2_000 {
        let Morning { bases, calls } = morning(&mut random);
        let mut lent = Lent::noisy(&mut random, SHEET);
        for (place, call) in calls {
            compare_sheets(&bases[place], call, &mut lent);
        }
    }
}

#[test]
fn sheets_of_any_bytes() {
    loose_sheets(85, 1_000, |random, base, call, sheet| {
        let mut lent = Lent::noisy(random, SHEET);
        *lent.sheet() = sheet;
        compare_sheets(base, call, &mut lent);
    });
}

#[test]
fn parameters() {
    random_parameters(86, 100_000, |checked| {
        assert_eq!(checked.by_twin(), checked.by_library(), "{checked:?}");
    });
}

#[test]
fn batches() {
    let mut random = Random::new(87);
    for _ in 0..4_000 {
        let records = sound_base(&mut random);
        let image = records.image();
        let base = Base::read(&image.bytes).expect("the base passes");
        let asked = random_question(&mut random, &records, &base);
        let batch = batch_for(&mut random, &base, &asked);
        let damaged = any_damage(&mut random, &image);
        let loose = loose_batch(&mut random, asked.at);
        compare_batch(&mut random, &image.bytes, &batch);
        compare_batch(&mut random, &damaged, &batch);
        compare_batch(&mut random, &image.bytes, &loose);
    }
}
