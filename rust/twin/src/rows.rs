//! The conflicts as rows of bits, a row for each kind and first.

use crate::acting::acting_roles;
use crate::base::Base;
use crate::related::{relations, slot, SLOTS};
use crate::users::parameter_of;
use crate::weights::juniors;

/// 64 rows of kind 1, 64 of kind 2 and 24 of kind 3.
pub const ROWS: usize = 152;

pub fn all_rows(base: &Base) -> [u64; ROWS] {
    let policies = base.policies;
    let names = policies
        .iter()
        .fold(0, |set, policy| set | 1 << slot(policy[4]));
    let related = relations(base.contexts, names);
    let juniors = juniors(base.hierarchy);
    let covered = cover_sets(policies, juniors);
    let apart = excluded_sets(base.exclusions);
    let mut rows = [0; ROWS];
    let (of_policies, of_users) = rows.split_at_mut(128);
    let (contradictions, overlaps) = of_policies.split_at_mut(64);
    for (i, row) in (0..policies.len()).zip(contradictions) {
        *row = row_above(i, policies.len(), |j| {
            contradict(&related, &policies[i], &policies[j])
        });
    }
    for (i, row) in (0..policies.len()).zip(overlaps) {
        let excluded = apart[usize::from(policies[i][1] & 15)];
        *row = row_above(i, policies.len(), |j| {
            excluded >> (policies[j][1] & 15) & 1 == 1 && covered[i & 63] & covered[j & 63] != 0
        });
    }
    let excluding = Excluding::of(base.exclusions);
    if excluding.all != 0 {
        for (user, row) in base.users.iter().zip(of_users) {
            *row = excluding.within(acting_roles(parameter_of(user), &juniors));
        }
    }
    rows
}

/// The bits of those from i + 1 to n - 1.
fn row_above(i: usize, n: usize, holds: impl Fn(usize) -> bool) -> u64 {
    (i + 1..n).fold(0, |row, j| row | u64::from(holds(j)) << (j & 63))
}

/// Kind 1: equal role and permission, different weight or type, and related
/// contexts.
fn contradict(related: &[u32; SLOTS], one: &[u8; 8], other: &[u8; 8]) -> bool {
    if one[..2] != other[..2] || one[2..4] == other[2..4] {
        return false;
    }
    let (s, t) = (slot(one[4]), slot(other[4]));
    related[s.min(t)] >> s.max(t) & 1 == 1
}

/// The roles that each policy covers.
fn cover_sets(policies: &[[u8; 8]], juniors: [u8; 8]) -> [u8; 64] {
    let mut sets = [0; 64];
    for (policy, set) in policies.iter().zip(&mut sets) {
        let role = policy[0] & 7;
        *set = 1 << role;
        if policy[3] == 1 {
            *set |= seniors_of(juniors, role);
        }
    }
    sets
}

fn seniors_of(juniors: [u8; 8], role: u8) -> u8 {
    let bit = |(senior, set): (usize, u8)| (set >> role & 1) << senior;
    juniors.into_iter().enumerate().map(bit).sum()
}

/// The permissions that each permission excludes.
fn excluded_sets(exclusions: &[[u8; 3]]) -> [u32; 16] {
    let mut sets = [0; 16];
    for &[kind, a, b] in exclusions {
        if kind == 1 {
            sets[usize::from(a & 15)] |= 1 << (b & 15);
            sets[usize::from(b & 15)] |= 1 << (a & 15);
        }
    }
    sets
}

/// The exclusions of roles, as bits: all of them, and those of each role.
struct Excluding {
    all: u64,
    of: [u64; 8],
}

impl Excluding {
    fn of(exclusions: &[[u8; 3]]) -> Excluding {
        let (mut all, mut of) = (0, [0; 8]);
        for (e, &[kind, a, b]) in exclusions.iter().enumerate() {
            let bit = u64::from(kind == 0) << (e & 63);
            all |= bit;
            of[usize::from(a & 7)] |= bit;
            of[usize::from(b & 7)] |= bit;
        }
        Excluding { all, of }
    }

    /// Kind 3: the exclusions with both roles in the set, which are all but those of a
    /// role outside it.
    #[inline(always)]
    fn within(&self, roles: u8) -> u64 {
        let outside = |(role, &of): (usize, &u64)| of * u64::from(!roles >> role & 1);
        let of = self.of.iter().enumerate();
        self.all & !of.fold(0, |outer, role| outer | outside(role))
    }
}

/// How many records the rows have.
pub fn row_count(rows: &[u64; ROWS]) -> u32 {
    rows.iter().map(|row| row.count_ones()).sum()
}

/// Writes the records of all rows.
pub fn write_rows(rows: &[u64; ROWS], out: &mut [[u8; 3]]) {
    let mut places = out.iter_mut();
    for (q, &row) in rows.iter().enumerate() {
        let (kind, first) = (1 + q / 64, q % 64);
        let mut rest = row;
        while rest != 0 {
            let Some(place) = places.next() else { return };
            *place = [kind as u8, first as u8, rest.trailing_zeros() as u8];
            rest &= rest - 1;
        }
    }
}

#[cfg(test)]
mod tests {
    use super::*;

    /// Records 0 and 3 are of roles 0 and 2, 1 of permissions, 2 of roles 1 and 7.
    #[test]
    fn an_exclusion_stands_where_both_roles_are_in_the_set() {
        let excluding = Excluding::of(&[[0, 0, 2], [1, 0, 2], [0, 1, 7], [0, 0, 2]]);
        for roles in 0..=255 {
            let has = |role: u8| roles >> role & 1 == 1;
            let even = if has(0) && has(2) { 0b1001 } else { 0 };
            let odd = if has(1) && has(7) { 0b0100 } else { 0 };
            assert_eq!(excluding.within(roles), even | odd);
        }
    }
}
