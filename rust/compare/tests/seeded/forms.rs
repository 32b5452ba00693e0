//! Bases in the form that they had before users had days, with the old letters
//! or the new ones, and bases with days turned. Every call that takes a base
//! refuses them as the base check does.

use compare::batches::agreed_batch;
use compare::bounds::agreed_bound;
use compare::builder::{BaseBuilder, LETTERS, OLD_LETTERS};
use compare::changes::random_change;
use compare::days::turn_days;
use compare::lent::Lent;
use compare::lists::LEGAL;
use compare::lively::{full_base, lively_base};
use compare::mornings::any_signing;
use compare::queries::batch_for;
use compare::questions::{any_context, any_permission, random_question};
use compare::random::Random;
use compare::rivals::rival_base;
use compare::sheets::{agreed_call, SheetCall};
use compare::sparse::sparse_base;
use compare::vouchers::{trust_for, trust_in};
use compare::{
    agreed_check, agreed_conflicts, agreed_decision, agreed_decision_by, agreed_decision_vouched,
    agreed_report, agreed_report_by, agreed_report_vouched,
};
use model::Base;

use crate::seen::{Call, Seen};

/// A sound base, and bytes made of it that are refused.
pub struct Misshapen<'a> {
    pub records: &'a BaseBuilder,
    /// What the records give.
    pub base: &'a Base,
    pub bytes: &'a [u8],
    pub refusal: u8,
}

/// The first bases of the comparison, each in four ways.
pub fn bases(count: usize, mut attempt: impl FnMut(&mut Random, Misshapen)) {
    let mut drawn = Random::new(201);
    let mut random = Random::new(202);
    for _ in 0..count {
        let records = sound_base(&mut drawn);
        let base = Base::read(&records.bytes()).expect("the base passes");
        for (bytes, refusal) in spoilt(&mut drawn, &records) {
            let misshapen = Misshapen {
                records: &records,
                base: &base,
                bytes: &bytes,
                refusal,
            };
            attempt(&mut random, misshapen);
        }
    }
}

/// A base that has users.
fn sound_base(random: &mut Random) -> BaseBuilder {
    match random.below(6) {
        0 => full_base(random),
        1 => sparse_base(random, 24),
        2 => rival_base(random, 6),
        _ => lively_base(random, 12),
    }
}

/// The old letters alone, the old form with either letters, and days turned; each
/// with its refusal. In the old form P lies too early, by the users' days.
fn spoilt(random: &mut Random, records: &BaseBuilder) -> [(Vec<u8>, u8); 4] {
    let old_letters = records.bytes_with(|trailer| trailer.letters = OLD_LETTERS);
    let mut turned = records.clone();
    turn_days(random, &mut turned);
    [
        (old_letters, 2),
        (records.old_bytes(OLD_LETTERS), 2),
        (records.old_bytes(LETTERS), 3),
        (turned.bytes(), 5),
    ]
}

pub fn compare(seen: &mut Seen) {
    bases(1_000, |random, misshapen| {
        for (call, answer) in answers(random, &misshapen) {
            assert_eq!(answer, misshapen.refusal, "base {:?}", misshapen.bytes);
            seen.answer(call, answer);
        }
    });
}

/// What every call answers that takes a base.
fn answers(random: &mut Random, misshapen: &Misshapen) -> Vec<(Call, u8)> {
    let Misshapen {
        records,
        base,
        bytes,
        ..
    } = misshapen;
    let asked = random_question(random, records, base);
    let list = random.pick(&LEGAL);
    let at = any_context(random, records);
    let changed = random_change(random, base);
    let mut lent = Lent::noisy(random, 16 * 13);
    let trust = trust_for(random, base, &asked);
    let trust_in_0 = trust_in(random, base, at.date, 0);
    let batch = batch_for(random, base, &asked);
    let mut answers = vec![
        (Call::Check, agreed_check(bytes)),
        (Call::Decide, agreed_decision(bytes, &asked)),
        (Call::DecideBy, agreed_decision_by(bytes, list, &asked)),
        (Call::Report, agreed_report(bytes, at, &mut lent).refusal),
        (
            Call::ReportBy,
            agreed_report_by(bytes, at, list, &mut lent).refusal,
        ),
        (Call::Conflicts, agreed_conflicts(bytes, &mut lent).refusal),
        (Call::Bound, agreed_bound(bytes, &changed).0),
        (
            Call::DecideVouched,
            agreed_decision_vouched(bytes, &trust, &asked),
        ),
        (
            Call::ReportVouched,
            agreed_report_vouched(bytes, at, &trust_in_0, 0, &mut lent).refusal,
        ),
        (Call::Batch, agreed_batch(bytes, &batch, &mut lent)),
    ];
    let kinds = [Call::Open, Call::Sign, Call::Ask];
    let calls = sheet_calls(random, misshapen);
    answers.extend(kinds.into_iter().zip(calls).map(|(kind, call)| {
        let mut sheet = Lent::noisy(random, 14);
        (kind, agreed_call(bytes, call, &mut sheet))
    }));
    answers
}

/// An opening, a signing and an asking.
pub fn sheet_calls(random: &mut Random, misshapen: &Misshapen) -> [SheetCall; 3] {
    let permissions = misshapen.base.permissions.len();
    [
        SheetCall::Open {
            permission: any_permission(random, permissions),
        },
        any_signing(random, misshapen.base),
        SheetCall::Ask {
            at: any_context(random, misshapen.records),
        },
    ]
}
