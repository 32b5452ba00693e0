//! Decisions and reports for a requester: by registers sound and damaged, on bases
//! of all kinds.

use compare::builder::BaseBuilder;
use compare::cases;
use compare::damage::*;
use compare::days::turn_days;
use compare::lent::Lent;
use compare::lively::lively_base;
use compare::questions::{any_context, context_in_range, Asked};
use compare::random::Random;
use compare::shown::{numbers, RECORD};
use compare::sparse::sparse_base;
use compare::trust::Trust;
use compare::valid::{random_base, Size};
use compare::vouchers::{any_requester, loose_trust, trust_for, trust_in};
use compare::{agreed_decision_vouched, agreed_report_vouched, permission_count};
use model::{Base, Context, Reading};

use crate::reports;
use crate::seen::{Call, Seen};

pub fn compare(seen: &mut Seen) {
    decisions_of_all_kinds(seen);
    sound_reports(2_500, |random, records, requester| {
        compare_reports(seen, random, records, requester)
    });
    every_group(seen);
    reports_of_all_kinds(seen);
}

/// The first questions of the comparison, with their registers.
pub fn questions(bases: usize, mut attempt: impl FnMut(&[u8], &Trust, &Asked)) {
    let mut random = Random::new(311);
    cases::lively_bases(312, bases, |base, asked| {
        let trust = any_trust(&mut random, base, asked);
        attempt(base, &trust, asked);
    });
}

/// A register for the question, or any bytes where the base is refused.
fn any_trust(random: &mut Random, base: &[u8], asked: &Asked) -> Trust {
    match Base::read(base) {
        Ok(base) if !random.chance(20) => trust_for(random, &base, asked),
        _ => loose_trust(random),
    }
}

fn decisions_of_all_kinds(seen: &mut Seen) {
    questions(6_000, |base, trust, asked| {
        compare_decision(seen, base, trust, asked)
    });
    let mut random = Random::new(313);
    let mut compare = |base: &[u8], asked: &Asked| {
        let trust = any_trust(&mut random, base, asked);
        compare_decision(seen, base, &trust, asked);
    };
    cases::full_bases(314, 500, &mut compare);
    cases::heavy_bases(315, 500, &mut compare);
    cases::valid_bases(316, 1_000, &mut compare);
    cases::every_short_group(317, 40, &mut compare);
    cases::damaged_bases(318, 2_000, &mut compare);
    cases::single_fields(319, 2, &mut compare);
    cases::loose_bytes(320, 10_000, &mut compare);
}

fn compare_decision(seen: &mut Seen, base: &[u8], trust: &Trust, asked: &Asked) {
    let answer = agreed_decision_vouched(base, trust, asked);
    seen.answer(Call::DecideVouched, answer);
    if let 0 | 26 = answer {
        seen.trusted.decided(trust, asked, answer);
    }
}

/// The first bases to report on, each for a requester who is there.
pub fn sound_reports(bases: usize, mut attempt: impl FnMut(&mut Random, &BaseBuilder, u32)) {
    let mut random = Random::new(321);
    reports::sound_bases(bases, |_, records| {
        if !records.users.is_empty() {
            let requester = random.below(records.users.len()) as u32;
            attempt(&mut random, records, requester);
        }
    });
}

/// The same for any requester, in any context and by any register.
pub fn any_reports(bases: usize, mut attempt: impl FnMut(&[u8], Context, &Trust, u32)) {
    let mut random = Random::new(326);
    reports::sound_bases(bases, |_, records| {
        let bytes = records.bytes();
        let base = Base::read(&bytes).expect("the base passes");
        let at = any_context(&mut random, records);
        let requester = any_requester(&mut random, &base);
        let trust = trust_in(&mut random, &base, at.date, requester);
        attempt(&bytes, at, &trust, requester);
    });
}

/// Compares a report whose buffer suffices, and notes its numbers beside those of
/// the first report; then one with anything else.
fn compare_reports(seen: &mut Seen, random: &mut Random, records: &BaseBuilder, requester: u32) {
    let bytes = records.bytes();
    let base = Base::read(&bytes).expect("the base passes");
    let whole = RECORD * records.permissions.len();
    let at = context_in_range(random, records);
    let trust = trust_in(random, &base, at.date, requester);
    let length = whole + random.pick(&[0, 1, 40]);
    let mut lent = Lent::noisy(random, length);
    let answer = agreed_report_vouched(&bytes, at, &trust, requester, &mut lent);
    seen.answer(Call::ReportVouched, answer.refusal);
    if answer.refusal == 0 {
        let shown = &lent.buffer()[..whole];
        note_report(seen, &base, at, requester, shown);
        let mut first = vec![0; whole];
        twin::report(&bytes, at, &mut first);
        seen.trusted.reported(&numbers(shown), &numbers(&first));
    }
    compare_any_report(seen, random, &bytes, records);
}

/// Notes where requesters stand, and that those out of date have no group.
fn note_report(seen: &mut Seen, base: &Base, at: Context, requester: u32, shown: &[u8]) {
    for record in shown.chunks_exact(RECORD) {
        let behind = record[0] > 1 && u32::from(record[3]) < requester;
        seen.trusted.shown_behind(behind);
    }
    let out_of_date = !base.comes_on(Reading::Paper, requester as u8, at.date);
    assert!(!out_of_date || numbers(shown).iter().all(|k| *k == 0));
    seen.trusted.out_of_date(out_of_date);
}

/// Compares a report on bytes that come from a base, for any requester.
fn compare_any_report(seen: &mut Seen, random: &mut Random, bytes: &[u8], records: &BaseBuilder) {
    let whole = RECORD * permission_count(bytes);
    let any = random.below(300);
    let length = random.pick(&[whole, whole, whole.saturating_sub(1), any]);
    let at = any_context(random, records);
    let (trust, requester) = match Base::read(bytes) {
        Ok(base) if !random.chance(20) => {
            let requester = any_requester(random, &base);
            (trust_in(random, &base, at.date, requester), requester)
        }
        _ => (loose_trust(random), random.below(30) as u32),
    };
    let mut lent = Lent::noisy(random, length);
    let answer = agreed_report_vouched(bytes, at, &trust, requester, &mut lent);
    seen.answer(Call::ReportVouched, answer.refusal);
}

/// Bases with few users, whose numbers are found by asking about every group.
fn every_group(seen: &mut Seen) {
    let mut random = Random::new(322);
    for _ in 0..250 {
        let most_users = random.pick(&[1, 2, 3, 4, 4]);
        let records = lively_base(&mut random, most_users);
        compare_by_trial(seen, &mut random, &records);
    }
    for _ in 0..10 {
        let records = sparse_base(&mut random, 6);
        compare_by_trial(seen, &mut random, &records);
    }
}

fn compare_by_trial(seen: &mut Seen, random: &mut Random, records: &BaseBuilder) {
    let bytes = records.bytes();
    let base = Base::read(&bytes).expect("the base passes");
    let at = context_in_range(random, records);
    let requester = random.below(base.users.len()) as u32;
    let trust = trust_in(random, &base, at.date, requester);
    let mut lent = Lent::noisy(random, RECORD * base.permissions.len());
    let answer = agreed_report_vouched(&bytes, at, &trust, requester, &mut lent);
    seen.answer(Call::ReportVouched, answer.refusal);
    if answer.refusal == 0 {
        let Trust {
            register,
            threshold,
        } = &trust;
        let permissions = 0..base.permissions.len() as u32;
        let by_trial = permissions.map(|permission| {
            let by_trial = model::smallest_vouched_by_trial;
            by_trial(&bytes, at, register, *threshold, requester, permission)
        });
        assert_eq!(numbers(lent.buffer()), by_trial.collect::<Vec<u8>>());
    }
}

fn sound_base(random: &mut Random) -> BaseBuilder {
    match random.below(6) {
        0 => random_base(random, Size::Small),
        1 => random_base(random, Size::Any),
        2 => sparse_base(random, 12),
        _ => lively_base(random, 12),
    }
}

/// Bases as they are, with changed bytes, with a table at its limit or above, with
/// a clause without conditions and with days turned; and any bytes.
fn reports_of_all_kinds(seen: &mut Seen) {
    let mut random = Random::new(323);
    for _ in 0..800 {
        let records = sound_base(&mut random);
        let image = records.image();
        for _ in 0..3 {
            compare_any_report(seen, &mut random, &image.bytes, &records);
            let damaged = any_damage(&mut random, &image);
            compare_any_report(seen, &mut random, &damaged, &records);
        }
        for spoil in [crowd, empty_clause, turn_days] {
            let mut spoilt = records.clone();
            spoil(&mut random, &mut spoilt);
            compare_any_report(seen, &mut random, &spoilt.bytes(), &records);
        }
    }
    for _ in 0..2 {
        let records = random_base(&mut random, Size::Small);
        field_by_field(&records.image(), |base| {
            compare_any_report(seen, &mut random, base, &records);
        });
    }
    let no_records = BaseBuilder::new(1);
    for _ in 0..2_000 {
        let base = random_bytes(&mut random);
        compare_any_report(seen, &mut random, &base, &no_records);
    }
}
