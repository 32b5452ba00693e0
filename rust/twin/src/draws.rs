//! Random bases, groups and numbers, for tests.

use model::Context;

use crate::plan::{Condition, Plan};

pub const AT: Context = Context {
    minute: 600,
    day: 3,
    zone: 1,
    date: 900,
};

/// Numbers that look random and repeat from run to run.
pub struct Draws(pub u64);

impl Draws {
    pub fn below(&mut self, end: usize) -> usize {
        self.0 ^= self.0 << 13;
        self.0 ^= self.0 >> 7;
        self.0 ^= self.0 << 17;
        (self.0 >> 16) as usize % end
    }

    pub fn byte(&mut self, first: u8, last: u8) -> u8 {
        first + self.below(usize::from(last - first) + 1) as u8
    }
}

pub fn random_plan(draws: &mut Draws) -> Plan {
    let few_roles = |draws: &mut Draws| 1 << draws.byte(0, 7) | 1 << draws.byte(0, 7);
    let edge = |draws: &mut Draws| {
        let junior = draws.byte(1, 7);
        (draws.byte(0, junior - 1), junior)
    };
    Plan {
        permissions: 4,
        users: (0..draws.below(25)).map(|_| few_roles(draws)).collect(),
        hierarchy: (0..draws.below(12)).map(|_| edge(draws)).collect(),
        policies: (0..draws.below(40))
            .map(|i| {
                (
                    draws.byte(0, 7),
                    i as u8 % 4,
                    draws.byte(1, 5),
                    draws.byte(0, 1),
                )
            })
            .collect(),
        clauses: (0..draws.below(8))
            .map(|i| (i as u8 % 4, vec![condition(draws), condition(draws)]))
            .collect(),
    }
}

/// Where a table starts.
pub fn offset(base: &[u8], table: usize) -> usize {
    let at = base.len() - 36 + 4 * table;
    u16::from_le_bytes([base[at], base[at + 1]]).into()
}

/// The base with other days for its users, which begin or end at the date,
/// beside it or far from it.
pub fn with_days(draws: &mut Draws, mut base: Vec<u8>) -> Vec<u8> {
    let date = AT.date as u16;
    let users = offset(&base, 1)..offset(&base, 2);
    for user in base[users].chunks_exact_mut(8) {
        let first = [0, date - 1, date, date, date + 1][draws.below(5)];
        let last = [date - 1, date, date, date + 1, 65_535][draws.below(5)];
        user[4..6].copy_from_slice(&first.min(last).to_le_bytes());
        user[6..].copy_from_slice(&last.max(first).to_le_bytes());
    }
    base
}

fn condition(draws: &mut Draws) -> Condition {
    match draws.byte(0, 3) {
        0 => (0, draws.byte(0, 5), draws.byte(1, 6)),
        1 => (1, draws.byte(0, 5), draws.byte(1, 60)),
        2 => (2, draws.byte(0, 5), draws.byte(1, 6)),
        _ => (3, 6, 1 << draws.byte(0, 7)),
    }
}

pub fn rises(group: &[u8]) -> bool {
    let users: Vec<u8> = group.chunks_exact(2).map(|entry| entry[0]).collect();
    users.windows(2).all(|pair| pair[0] < pair[1])
}

/// Mostly a number below the end, at times one at it or far above.
pub fn number(draws: &mut Draws, first: u32, end: u32) -> u32 {
    match draws.below(12) {
        0 => [0, end, 255, 256 + first, u32::MAX][draws.below(5)],
        _ => first + draws.below((end - first).max(1) as usize) as u32,
    }
}

/// Users in a row, each in a role held; at times one byte is another, or the
/// last one is missing.
pub fn random_group(draws: &mut Draws, users: &[u8]) -> Vec<u8> {
    let first = draws.below(users.len().max(1));
    let count = draws.below(8);
    let chosen = users.iter().enumerate().skip(first).take(count);
    let mut group: Vec<u8> = chosen
        .flat_map(|(user, roles)| [user as u8, roles.trailing_zeros() as u8])
        .collect();
    match draws.below(4) {
        0 if !group.is_empty() => {
            let place = draws.below(group.len());
            group[place] = draws.byte(0, 24);
        }
        1 if draws.below(4) == 0 => _ = group.pop(),
        _ => (),
    }
    group
}
