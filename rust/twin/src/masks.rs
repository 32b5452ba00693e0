//! Which of a permission's clauses are met, as sets of clauses: bit i for K
//! record i. Three masks, by number of entries, sum and set of roles, have a
//! bit in common exactly where a clause is met.

use crate::asked::{asked, Asked};
use crate::conditions::{conditions, Clause};
use crate::weights::Weighed;
use crate::MOST;

/// For each sum, or for each set of roles, the clauses that it meets.
pub type Masks = [u64; 256];

/// For each number of entries the clauses that can be met with so many.
pub struct Rows([u64; 1 + MOST]);

impl Rows {
    /// The clauses that can be met with n entries.
    pub fn row(&self, n: usize) -> u64 {
        self.0[n]
    }

    /// The most entries with which a clause can be met, or 0.
    pub fn last(&self) -> usize {
        (1..=MOST).rfind(|&n| self.0[n] != 0).unwrap_or(0)
    }
}

/// Marks the permission's clauses at the sums and the sets of roles that meet
/// them; for each number of entries the clauses that can be met with so many.
/// Both masks hold 0 throughout; `role_nums` has each set's number of roles.
#[inline(always)]
pub fn mark(
    clauses: &[Clause],
    permission: usize,
    weighed: Weighed,
    role_nums: &[u8; 256],
    sums: &mut Masks,
    sets: &mut Masks,
) -> Rows {
    let mut rows = [0; 1 + MOST];
    let (mut needing, mut by_number) = ([0; 8], [0; 8]);
    let (mut all, mut some_by_number) = (0, false);
    for (i, clause) in clauses.iter().enumerate() {
        if usize::from(clause[0]) != permission {
            continue;
        }
        let i = i & 63;
        let asked = asked(clause);
        let sizes = asked.possible(weighed);
        if sizes == 0 {
            continue;
        }
        all |= 1 << i;
        for (n, row) in rows.iter_mut().enumerate() {
            *row |= u64::from(sizes >> n & 1) << i;
        }
        for r in 0..8 {
            needing[r] |= u64::from(asked.need >> r & 1) << i;
            by_number[r] |= u64::from(asked.role_nums >> r & 1) << i;
        }
        some_by_number |= asked.by_number();
        mark_sums(clause, asked, 1 << i, MOST * weighed.heavy + 1, sums);
    }
    if all != 0 {
        mark_sets(all, &needing, weighed, sets);
        if some_by_number {
            for (mask, role_num) in sets.iter_mut().zip(role_nums).take(1 << weighed.end) {
                *mask &= by_number[usize::from(role_num & 7)];
            }
        }
        // No group has no roles.
        sets[0] = 0;
    }
    Rows(rows)
}

/// Marks the clause at the sums below `end` that meet its conditions on sums.
fn mark_sums(clause: &Clause, asked: Asked, bit: u64, end: usize, sums: &mut Masks) {
    let end = asked.end.min(end);
    let low = asked.low.min(end);
    for mask in &mut sums[low..end] {
        *mask |= bit;
    }
    for &[attribute, operator, value] in conditions(clause) {
        if attribute == 1 && operator == 5 {
            sums[usize::from(value)] &= !bit;
        }
    }
}

/// For each set of roles the clauses that need no others; none where a role has
/// no weight. Role by role, with it and without it.
fn mark_sets(all: u64, needing: &[u64; 8], weighed: Weighed, sets: &mut Masks) {
    sets[0] = all;
    for (r, needing) in needing.iter().enumerate().take(weighed.end) {
        let weight = u64::from(weighed.roles >> r & 1);
        let (without, with) = sets.split_at_mut(1 << r);
        for i in 0..1 << r {
            with[i] = without[i] * weight;
            without[i] &= !needing;
        }
    }
}

/// The number of roles of each set.
pub fn role_nums() -> [u8; 256] {
    let mut role_nums = [0; 256];
    for r in 0..8 {
        let (without, with) = role_nums.split_at_mut(1 << r);
        for (with, without) in with.iter_mut().zip(without) {
            *with = *without + 1;
        }
    }
    role_nums
}
