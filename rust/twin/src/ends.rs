//! Who comes next: ends, each one past a user.

use crate::acting::acting_roles;
use crate::users::{in_days, parameter_of, User};

/// In place of an end: there is no such user.
pub const NOBODY: u8 = 25;

/// By place and role the end after the next user from the place on whose days
/// include the date and who may act in the role, or [`NOBODY`]; from there on
/// there is nobody.
pub type NextEnds = [[u8; 8]; 1 + NOBODY as usize];

/// 1 in each of eight bytes.
const ONES: u64 = 0x0101_0101_0101_0101;

pub fn next_ends(users: &[User], juniors: &[u8; 8], date: u32) -> NextEnds {
    let roles = users.iter().map(|user| roles_on(user, juniors, date));
    next_ends_of(roles)
}

/// The same by the roles that each user may act in.
#[inline(always)]
pub fn next_ends_of<I>(roles: I) -> NextEnds
where
    I: DoubleEndedIterator<Item = u8> + ExactSizeIterator,
{
    let mut ends = [[NOBODY; 8]; 1 + NOBODY as usize];
    for (place, roles) in roles.enumerate().rev() {
        let acting = spread(roles);
        let later = u64::from_le_bytes(ends[place + 1]);
        let here = ONES * (place as u64 + 1);
        ends[place] = (here & acting | later & !acting).to_le_bytes();
    }
    ends
}

/// The roles that the user may act in on the date, as a set.
#[inline(always)]
pub fn roles_on(user: &User, juniors: &[u8; 8], date: u32) -> u8 {
    match in_days(user, date) {
        true => acting_roles(parameter_of(user), juniors),
        false => 0,
    }
}

/// 255 in the bytes of the set's roles, 0 in the others.
fn spread(roles: u8) -> u64 {
    let bits = (ONES * u64::from(roles)) & 0x8040_2010_0804_0201;
    ((bits + 0x7f * ONES) >> 7 & ONES) * 0xff
}

#[cfg(test)]
mod tests {
    use super::*;

    #[test]
    fn each_role_has_its_byte() {
        for roles in 0..=255 {
            let bytes = spread(roles).to_le_bytes();
            for (role, byte) in bytes.into_iter().enumerate() {
                assert_eq!(byte, 255 * (roles >> role & 1));
            }
        }
    }

    /// 0 over 1: user 0 holds role 1, user 1 role 0 from day 7 to day 8, user 2
    /// none, and user 3 both.
    fn ends_on(date: u32) -> [[u8; 2]; 5] {
        let users = [
            [5, 0, 0, 0, 0, 0, 255, 255],
            [3, 0, 0, 0, 7, 0, 8, 0],
            [1, 0, 0, 0, 0, 0, 255, 255],
            [15, 0, 0, 0, 0, 0, 255, 255],
        ];
        let ends = next_ends(&users, &[0b10, 0, 0, 0, 0, 0, 0, 0], date);
        assert!(ends.iter().all(|ends| ends[2..] == [NOBODY; 6]));
        [0, 1, 2, 3, 4].map(|place: usize| [ends[place][0], ends[place][1]])
    }

    #[test]
    fn the_next_user_who_may_act() {
        for date in [7, 8] {
            assert_eq!(ends_on(date), [[2, 1], [2, 2], [4, 4], [4, 4], [NOBODY; 2]]);
        }
        for date in [0, 6, 9, 65_535] {
            assert_eq!(ends_on(date), [[4, 1], [4, 4], [4, 4], [4, 4], [NOBODY; 2]]);
        }
    }
}
