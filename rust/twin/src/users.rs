//! The fields of a user's record.

/// A U record: the parameter, the first day and the last.
pub type User = [u8; 8];

/// The first four bytes. Read as part of all eight, which is one load.
#[inline(always)]
pub fn parameter_of(user: &User) -> u32 {
    u64::from_le_bytes(*user) as u32
}

/// The first day and the last.
#[inline(always)]
fn days_of(&[.., a, b, c, d]: &User) -> (u16, u16) {
    (u16::from_le_bytes([a, b]), u16::from_le_bytes([c, d]))
}

/// The first day is above the last.
#[inline(always)]
pub fn days_bad(user: &User) -> bool {
    let (first, last) = days_of(user);
    last < first
}

/// Whether the user's days include the date.
#[inline(always)]
pub fn in_days(user: &User, date: u32) -> bool {
    let (first, last) = days_of(user);
    (u32::from(first)..=u32::from(last)).contains(&date)
}

#[cfg(test)]
mod tests {
    use super::*;

    /// Parameter 3 * 23, from day 258 to day 772.
    const USER: User = [69, 0, 0, 0, 2, 1, 4, 3];

    #[test]
    fn fields_are_read_from_their_places() {
        assert_eq!(parameter_of(&USER), 69);
        assert_eq!(parameter_of(&[1, 2, 3, 4, 0, 0, 0, 0]), 0x0403_0201);
        assert_eq!(days_of(&USER), (258, 772));
    }

    #[test]
    fn both_days_are_included() {
        for date in [258, 259, 771, 772] {
            assert!(in_days(&USER, date));
        }
        for date in [0, 1, 257, 773, 65_535] {
            assert!(!in_days(&USER, date));
        }
        let one_day = [69, 0, 0, 0, 2, 1, 2, 1];
        let dates = (0..65_536).filter(|&date| in_days(&one_day, date));
        assert!(dates.eq([258]));
        let all_days = [69, 0, 0, 0, 0, 0, 255, 255];
        assert!((0..65_536).all(|date| in_days(&all_days, date)));
    }

    #[test]
    fn the_first_day_is_not_above_the_last() {
        assert!(!days_bad(&USER));
        assert!(!days_bad(&[0, 0, 0, 0, 2, 1, 2, 1]));
        assert!(days_bad(&[0, 0, 0, 0, 3, 1, 2, 1]));
        assert!(days_bad(&[0, 0, 0, 0, 1, 2, 255, 1]));
    }
}
