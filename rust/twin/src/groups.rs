//! The decision on a group: refusals 12 to 15, which a bound gives too, 24, 26, 16
//! and 17.

use crate::acting::{acting_roles, holds_role};
use crate::base::Base;
use crate::conditions::holds;
use crate::users::{in_days, parameter_of};
use crate::weights::{Setting, Weights};
use crate::MOST;

/// The entries, or the first of refusals 12 to 15 that applies.
pub fn members<'a>(base: &Base, juniors: &[u8; 8], group: &'a [u8]) -> Result<&'a [[u8; 2]], u8> {
    let (entries, odd) = group.as_chunks::<2>();
    if entries.is_empty() || !odd.is_empty() || MOST < entries.len() {
        return Err(12);
    }
    if entries.iter().any(|entry| unknown(base, entry)) {
        return Err(13);
    }
    if (1..entries.len()).any(|i| stands_before(entries, i)) {
        return Err(14);
    }
    let may_act = |entry: &[u8; 2]| may_act(base, entry, || *juniors);
    if !entries.iter().all(may_act) {
        return Err(15);
    }
    Ok(entries)
}

/// 0 where the group is granted, else the first of refusals 12 to 15, 24, 26, 16 and
/// 17 that applies. The weights are asked for after 26.
pub fn group_refusal(
    base: &Base,
    permission: u8,
    setting: &Setting,
    lacking: impl FnOnce(&[[u8; 2]]) -> bool,
    weights: impl FnOnce() -> Weights,
    group: &[u8],
) -> u8 {
    let entries = match members(base, &setting.juniors, group) {
        Ok(entries) => entries,
        Err(refusal) => return refusal,
    };
    let in_days = |entry: &[u8; 2]| in_days(&base.users[usize::from(entry[0])], setting.date);
    if !entries.iter().all(in_days) {
        return 24;
    }
    if lacking(entries) {
        return 26;
    }
    let w = weights();
    if entries.iter().any(|entry| weight_of(w, entry) == 0) {
        return 16;
    }
    let sum = entries.iter().map(|entry| weight_of(w, entry)).sum();
    let set = entries
        .iter()
        .fold(0, |set, entry| set | 1 << (entry[1] & 7));
    let mut own = base.clauses.iter().filter(|clause| clause[0] == permission);
    match holds(&mut own, entries.len() as u32, sum, set) {
        true => 0,
        false => 17,
    }
}

fn unknown(base: &Base, &[user, role]: &[u8; 2]) -> bool {
    base.users.len() <= usize::from(user) || base.roles <= role
}

fn stands_before(entries: &[[u8; 2]], i: usize) -> bool {
    let (before, later) = entries.split_at(i);
    before.iter().any(|entry| entry[0] == later[0][0])
}

/// Whether the user holds the role, or one whose juniors it is among.
pub fn may_act(base: &Base, &[user, role]: &[u8; 2], juniors: impl FnOnce() -> [u8; 8]) -> bool {
    let parameter = parameter_of(&base.users[usize::from(user)]);
    let role = role & 7;
    holds_role(parameter, role.into()) || acting_roles(parameter, &juniors()) >> role & 1 == 1
}

fn weight_of(w: Weights, entry: &[u8; 2]) -> u32 {
    w[usize::from(entry[1] & 7)].into()
}
