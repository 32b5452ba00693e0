//! What a clause asks, taken apart.

use crate::conditions::Clause;
use crate::weights::Weighed;
use crate::MOST;

/// The numbers from 1 to 6, as a set.
const NUMBERS: u32 = 0x7e;

/// What a clause asks, but for sums that are not to be.
#[derive(Clone, Copy)]
pub struct Asked {
    /// The numbers of entries, as a set.
    sizes: u32,
    /// The numbers of different roles, as a set.
    pub role_nums: u32,
    /// The roles that have to be there.
    pub need: u8,
    /// The least sum, and one past the largest.
    pub low: usize,
    pub end: usize,
}

#[inline(always)]
pub fn asked(clause: &Clause) -> Asked {
    let mut asked = Asked {
        sizes: NUMBERS,
        role_nums: NUMBERS,
        need: 0,
        low: 0,
        end: 256,
    };
    for j in 0..usize::from(clause[1]).min(4) {
        let (operator, v) = (clause[3 * j + 3], usize::from(clause[3 * j + 4]));
        match clause[3 * j + 2] {
            0 => asked.sizes &= numbers(operator, v),
            1 => {
                let (low, end) = range(operator, v);
                asked.low = asked.low.max(low);
                asked.end = asked.end.min(end);
            }
            2 => asked.role_nums &= numbers(operator, v),
            _ => asked.need |= clause[3 * j + 4],
        }
    }
    asked
}

/// From which number on to before which, for operators 0 to 4; with 5 all.
fn range(operator: u8, v: usize) -> (usize, usize) {
    match operator {
        0 => (v + 1, 256),
        1 => (0, v),
        2 => (v, 256),
        3 => (0, v + 1),
        4 => (v, v + 1),
        _ => (0, 256),
    }
}

/// The numbers below 16 that stand to v as the operator says.
fn numbers(operator: u8, v: usize) -> u32 {
    if operator == 5 {
        return !(1 << v.min(31));
    }
    let (low, end) = range(operator, v);
    (1 << end.min(16)) - (1_u32 << low.min(16).min(end))
}

impl Asked {
    /// Not every number of different roles will do.
    pub fn by_number(&self) -> bool {
        self.role_nums != NUMBERS
    }

    /// The numbers of entries with which the clause can be met as far as the
    /// least and the largest weight tell.
    pub fn possible(&self, weighed: Weighed) -> u32 {
        if self.need & !weighed.roles != 0 {
            return 0;
        }
        let mut sizes = self.sizes;
        let fewest = self.need.count_ones().max(self.role_nums.trailing_zeros());
        for n in 1..=MOST {
            let few = (n as u32) < fewest;
            if few || n * weighed.heavy < self.low || self.end <= n * weighed.light {
                sizes &= !(1 << n);
            }
        }
        sizes
    }
}
