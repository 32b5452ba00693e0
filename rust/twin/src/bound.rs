//! How far a new weight of one policy can shift a group's sum of weights.

use model::Answer;

use crate::base::Base;
use crate::groups::members;
use crate::weights::juniors;

/// The difference of the two weights times the number of entries in the
/// policy's role or a senior one, or the first of refusals 1 to 9, 12 to 15 and
/// 21 that applies.
pub fn bound(base: &[u8], policy: u32, weight: u32, group: &[u8]) -> Answer {
    match shift(base, policy, weight, group) {
        Ok(count) => Answer { refusal: 0, count },
        Err(refusal) => Answer { refusal, count: 0 },
    }
}

fn shift(base: &[u8], policy: u32, weight: u32, group: &[u8]) -> Result<u32, u8> {
    let base = Base::read(base)?;
    let juniors = juniors(base.hierarchy);
    let entries = members(&base, &juniors, group)?;
    let &[role, _, old, ..] = base.policies.get(policy as usize).ok_or(21)?;
    if !(1..=5).contains(&weight) {
        return Err(21);
    }
    let reached = |entry: &&[u8; 2]| {
        let acted_in = entry[1] & 7;
        acted_in == role || juniors[usize::from(acted_in)] >> (role & 7) & 1 == 1
    };
    let count = entries.iter().filter(reached).count() as u32;
    Ok(u32::from(old).abs_diff(weight) * count)
}
