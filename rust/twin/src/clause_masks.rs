//! Of all permissions' clauses those that a number of entries, a sum of weights and
//! a set of roles meet, as sets of clauses: bit i for K record i. A clause is met
//! where it is in all three. Bits for clauses that aren't there may stand anywhere.

use crate::base::Base;
use crate::conditions::conditions;
use crate::masks::role_nums;
use crate::MOST;

/// The most roles, how many sets of roles, and how many sums: a weight is 40 at most.
const ROLES: usize = 8;
pub const SETS: usize = 1 << ROLES;
pub const SUMS: usize = 1 + 40 * MOST;

/// The clauses that are met, by each number of entries, sum and set of roles.
pub struct Masks<'a> {
    pub entries: &'a mut [u64; 1 + MOST],
    pub sums: &'a mut [u64; SUMS],
    pub sets: &'a mut [u64; SETS],
}

impl Masks<'_> {
    /// For sums up to the highest and sets of roles that are there. All masks hold 0.
    #[inline(never)]
    pub fn fill(&mut self, base: &Base, highest: usize) {
        let mut entries = Unmet {
            below: &mut [0; 1 + MOST],
            from: &mut [0; 1 + MOST],
            masks: self.entries,
        };
        let mut sums = Unmet {
            below: &mut [0; SUMS],
            from: &mut [0; SUMS],
            masks: &mut self.sums[..=highest],
        };
        let mut numbers = Unmet {
            below: &mut [0; 1 + ROLES],
            from: &mut [0; 1 + ROLES],
            masks: &mut [0; 1 + ROLES],
        };
        let mut without = [!0; ROLES];
        for (i, clause) in base.clauses.iter().enumerate() {
            let bit = 1 << (i & 63);
            for &[attribute, operator, value] in conditions(clause) {
                match attribute {
                    0 => entries.mark(operator, value.into(), bit),
                    1 => sums.mark(operator, value.into(), bit),
                    2 => numbers.mark(operator, value.into(), bit),
                    _ => strike(&mut without, value, bit),
                }
            }
        }
        entries.turn();
        sums.turn();
        numbers.turn();
        fill_sets(base.roles, &without, numbers.masks, self.sets);
    }
}

/// Clauses that aren't met: at all numbers up to one, from one on, and at one.
struct Unmet<'a> {
    below: &'a mut [u64],
    from: &'a mut [u64],
    masks: &'a mut [u64],
}

impl Unmet<'_> {
    /// By an operator from 0 to 5 and its value.
    #[inline(always)]
    fn mark(&mut self, operator: u8, v: usize, bit: u64) {
        match operator {
            0 => self.below(v + 1, bit),
            1 => self.from(v, bit),
            2 => self.below(v, bit),
            3 => self.from(v + 1, bit),
            4 => {
                self.below(v, bit);
                self.from(v + 1, bit);
            }
            _ => mark_at(self.masks, v, bit),
        }
    }

    #[inline(always)]
    fn below(&mut self, end: usize, bit: u64) {
        if let Some(last) = end.min(self.masks.len()).checked_sub(1) {
            mark_at(self.below, last, bit);
        }
    }

    #[inline(always)]
    fn from(&mut self, low: usize, bit: u64) {
        mark_at(self.from, low, bit);
    }

    /// From the clauses that aren't met to those that are.
    #[inline(always)]
    fn turn(&mut self) {
        let mut unmet = 0;
        for (mask, from) in self.masks.iter_mut().zip(&*self.from) {
            unmet |= from;
            *mask |= unmet;
        }
        unmet = 0;
        for (mask, below) in self.masks.iter_mut().zip(&*self.below).rev() {
            unmet |= below;
            *mask = !(*mask | unmet);
        }
    }
}

#[inline(always)]
fn mark_at(masks: &mut [u64], place: usize, bit: u64) {
    if let Some(mask) = masks.get_mut(place) {
        *mask |= bit;
    }
}

/// Takes the clause out of the masks of groups without one of the roles.
fn strike(without: &mut [u64; ROLES], roles: u8, bit: u64) {
    let mut rest = roles;
    while rest != 0 {
        without[rest.trailing_zeros() as usize & 7] &= !bit;
        rest &= rest - 1;
    }
}

/// Role by role, with it and without it; then by the number of roles.
fn fill_sets(roles: u8, without: &[u64; ROLES], by_number: &[u64], sets: &mut [u64; SETS]) {
    let roles = usize::from(roles).min(ROLES);
    sets[0] = !0;
    for (r, without_it) in without[..roles].iter().enumerate() {
        let (without, with) = sets.split_at_mut(1 << r);
        for (without, with) in without.iter_mut().zip(with) {
            *with = *without;
            *without &= without_it;
        }
    }
    if by_number.iter().any(|&mask| mask != !0) {
        for (mask, role_num) in sets[..1 << roles].iter_mut().zip(role_nums()) {
            *mask &= by_number[usize::from(role_num)];
        }
    }
}

#[cfg(test)]
mod tests {
    use super::*;
    use crate::conditions::holds;
    use crate::draws::Draws;
    use crate::plan::{Condition, Plan};

    /// Up to four conditions of one or of any attributes, on values near what there
    /// is or on any.
    fn clause(draws: &mut Draws) -> Vec<Condition> {
        let one = draws.byte(0, 7);
        let condition = |draws: &mut Draws| {
            let any = draws.byte(0, 3);
            let attribute = if one < 4 { one } else { any };
            let last = [8, 60, 255][draws.below(3)];
            match attribute {
                3 => (3, 6, 1 << draws.byte(0, 7) | 1 << draws.byte(0, 7)),
                _ => (attribute, draws.byte(0, 5), draws.byte(0, last)),
            }
        };
        (0..draws.byte(1, 4)).map(|_| condition(draws)).collect()
    }

    #[test]
    fn a_clause_is_in_all_masks_where_it_is_met() {
        let mut draws = Draws(14);
        let mut times = [0; 2];
        for _ in 0..300 {
            let plan = Plan {
                permissions: 16,
                clauses: (0..64).map(|i| (i % 16, clause(&mut draws))).collect(),
                ..Plan::default()
            };
            let highest = [0, 30, SUMS - 1][draws.below(3)];
            let bytes = plan.bytes();
            let base = Base::read(&bytes).expect("the base passes");
            let mut masks = Masks {
                entries: &mut [0; 1 + MOST],
                sums: &mut [0; SUMS],
                sets: &mut [0; SETS],
            };
            masks.fill(&base, highest);
            for _ in 0..300 {
                let (n, set) = (1 + draws.below(MOST), 1 + draws.below(SETS - 1));
                let sum = draws.below(1 + highest);
                let met = masks.entries[n] & masks.sums[sum] & masks.sets[set];
                for (i, clause) in base.clauses.iter().enumerate() {
                    let holds = holds([clause], n as u32, sum as u32, set as u8);
                    assert_eq!(met >> i & 1 == 1, holds, "{clause:?}");
                    times[usize::from(holds)] += 1;
                }
            }
        }
        assert!(times.iter().all(|&times| times > 100_000), "{times:?}");
    }
}
