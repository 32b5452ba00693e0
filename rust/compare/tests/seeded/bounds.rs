//! Bounds: policies, new weights and groups of all kinds.

use compare::acting::{most_records_down, records_between};
use compare::bounds::{agreed_bound, Changed};
use compare::changes;
use model::Base;

use crate::seen::{Call, Seen};

pub fn compare(seen: &mut Seen) {
    let mut compare = |base: &[u8], changed: &Changed| compare_bound(seen, base, changed);
    sound_bases(16_000, &mut compare);
    changes::damaged_bases(122, 3_000, &mut compare);
    changes::single_fields(123, 6, &mut compare);
    changes::loose_bytes(124, 10_000, &mut compare);
}

/// The first bases of the comparison, with their changes.
pub fn sound_bases(bases: usize, attempt: impl FnMut(&[u8], &Changed)) {
    changes::sound_bases(121, bases, attempt);
}

fn compare_bound(seen: &mut Seen, base: &[u8], changed: &Changed) {
    let (refusal, bound) = agreed_bound(base, changed);
    seen.answer(Call::Bound, refusal);
    let decided = expect_as_decided(base, changed, refusal);
    seen.dated
        .bounded_out_of_date(decided == 24 && refusal == 0);
    if refusal != 0 {
        return;
    }
    let base = Base::read(base).expect("a refused base has no bound");
    let records = most_records_down(&base, &changed.group);
    seen.bound(bound, records.expect("all of them may act"));
    let role = base.policies[changed.policy as usize].role;
    for entry in changed.group.chunks_exact(2) {
        if let Some(records) = records_between(&base, vec![entry[1]], role) {
            seen.reached(records);
        }
    }
}

/// Refusals 1 to 9 and 12 to 15 are those of the decision, for a permission that
/// is there and a context in range; where it gives another answer, 24 too, the
/// bound has no refusal but 21. The decision's answer.
fn expect_as_decided(base: &[u8], changed: &Changed, refusal: u8) -> u32 {
    let at = release::Context::new(600, 0, 0, 0);
    let decided = release::answers::decide(base, 0, at, &changed.group);
    match decided {
        1..=9 | 12..=15 => assert_eq!(u32::from(refusal), decided),
        10 => assert!(9 < refusal),
        _ => assert!([0, 21].contains(&refusal)),
    }
    decided
}
