//! A register of statements: who trusts whom, for which permission, how far and
//! from which day to which.

use crate::base::Base;

/// A record: issuer, requester, permission, trust, the first day and the last.
pub type Statement = [u8; 8];

/// Bytes of the longest register.
const LONGEST: usize = 2_048;

/// The statements, or refusal 25.
pub fn read<'a>(base: &Base, register: &'a [u8]) -> Result<&'a [Statement], u8> {
    let (statements, rest) = register.as_chunks();
    let (users, permissions) = (base.users.len() as u8, base.permissions.len() as u8);
    let bad = |statement| statement_bad(statement, users, permissions);
    if LONGEST < register.len() || !rest.is_empty() || statements.iter().any(bad) {
        return Err(25);
    }
    Ok(statements)
}

#[inline(always)]
fn statement_bad(statement: &Statement, users: u8, permissions: u8) -> bool {
    let &[issuer, requester, permission, trust, ..] = statement;
    let (first, last) = days_of(statement);
    users <= issuer
        || users <= requester
        || permissions <= permission
        || !(1..=5).contains(&trust)
        || last < first
}

#[inline(always)]
fn days_of(&[.., a, b, c, d]: &Statement) -> (u16, u16) {
    (u16::from_le_bytes([a, b]), u16::from_le_bytes([c, d]))
}

/// What a statement is asked for: the requester, the least trust and the date.
#[derive(Clone, Copy)]
pub struct Wanted {
    pub requester: u8,
    pub threshold: u8,
    pub date: u32,
}

impl Wanted {
    #[inline(always)]
    fn is_met(self, statement: &Statement) -> bool {
        let (first, last) = days_of(statement);
        statement[1] == self.requester
            && self.threshold <= statement[3]
            && (u32::from(first)..=u32::from(last)).contains(&self.date)
    }

    /// For each permission the users with such a statement, as a set.
    pub fn vouching(self, statements: &[Statement]) -> [u32; 16] {
        let mut sets = [0; 16];
        for statement in statements.iter().filter(|statement| self.is_met(statement)) {
            sets[usize::from(statement[2] & 15)] |= 1 << (statement[0] & 31);
        }
        sets
    }

    /// Whether there is such a statement for the permission from each of the users, a
    /// set.
    pub fn vouched_by(self, statements: &[Statement], permission: u8, users: u32) -> bool {
        let mut left = users;
        for statement in statements {
            if left == 0 {
                break;
            }
            if statement[2] == permission && self.is_met(statement) {
                left &= !(1 << (statement[0] & 31));
            }
        }
        left == 0
    }
}

#[cfg(test)]
mod tests {
    use super::*;

    /// User 3 trusts user 1 by 4 for permission 2, from day 258 to day 772.
    const STATEMENT: Statement = [3, 1, 2, 4, 2, 1, 4, 3];

    #[test]
    fn both_days_are_included() {
        for (date, met) in [(257, false), (258, true), (772, true), (773, false)] {
            let wanted = Wanted {
                requester: 1,
                threshold: 4,
                date,
            };
            assert_eq!(wanted.is_met(&STATEMENT), met);
        }
    }

    #[test]
    fn each_permission_has_its_users() {
        let other = |byte: usize, value: u8| {
            let mut other = STATEMENT;
            other[byte] = value;
            other
        };
        let statements = [
            STATEMENT,
            other(0, 5),
            other(1, 3),
            other(2, 0),
            other(3, 3),
        ];
        let wanted = Wanted {
            requester: 1,
            threshold: 4,
            date: 300,
        };
        let mut sets = [0; 16];
        (sets[0], sets[2]) = (1 << 3, 1 << 3 | 1 << 5);
        assert_eq!(wanted.vouching(&statements), sets);
        for (permission, set) in (0..16).zip(sets) {
            for users in 0..64 {
                let vouched = wanted.vouched_by(&statements, permission, users);
                assert_eq!(vouched, users & !set == 0);
            }
        }
    }
}
