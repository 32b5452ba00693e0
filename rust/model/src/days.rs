//! On which dates a user approves.

use crate::base::Base;
use crate::reading::Reading;
use crate::records::User;

impl User {
    /// Whether the user's days include the date: the first and the last day do.
    pub fn comes_on(&self, date: u32) -> bool {
        self.comes_on_as(Reading::Paper, date)
    }

    fn comes_on_as(&self, reading: Reading, date: u32) -> bool {
        let (first, last) = (u32::from(self.first_day), u32::from(self.last_day));
        match reading {
            Reading::FirstDayExcluded => first < date && date <= last,
            Reading::LastDayExcluded => first <= date && date < last,
            _ => first <= date && date <= last,
        }
    }
}

impl Base {
    /// Whether the user is there and comes on the date.
    pub fn comes_on(&self, reading: Reading, user: u8, date: u32) -> bool {
        let user = self.users.get(usize::from(user));
        user.is_some_and(|user| user.comes_on_as(reading, date))
    }
}

#[cfg(test)]
mod tests {
    use super::*;
    use crate::samples::{small_shop, user};

    fn with_days(first_day: u16, last_day: u16) -> User {
        User {
            first_day,
            last_day,
            ..user(&[0])
        }
    }

    /// The dates among these on which a user of such days comes.
    fn dates(reading: Reading, days: (u16, u16), dates: &[u32]) -> Vec<u32> {
        let user = with_days(days.0, days.1);
        let dates = dates.iter().copied();
        dates
            .filter(|date| user.comes_on_as(reading, *date))
            .collect()
    }

    #[test]
    fn both_days_are_included() {
        let paper = |days, tried: &[u32]| dates(Reading::Paper, days, tried);
        let beside = [98, 99, 100, 101, 199, 200, 201, 202];
        assert_eq!(paper((100, 200), &beside), [100, 101, 199, 200]);
        assert_eq!(paper((100, 100), &beside), [100]);
        assert_eq!(paper((255, 256), &[254, 255, 256, 257]), [255, 256]);
        let ends = [0, 1, 65_534, 65_535];
        assert_eq!(paper((0, 65_535), &ends), ends);
        assert_eq!(paper((0, 0), &ends), [0]);
        assert_eq!(paper((65_535, 65_535), &ends), [65_535]);
    }

    #[test]
    fn wrong_readings_leave_an_end_out() {
        let beside = [99, 100, 101, 199, 200, 201];
        let first_excluded = dates(Reading::FirstDayExcluded, (100, 200), &beside);
        assert_eq!(first_excluded, [101, 199, 200]);
        let last_excluded = dates(Reading::LastDayExcluded, (100, 200), &beside);
        assert_eq!(last_excluded, [100, 101, 199]);
        for wrong in [Reading::FirstDayExcluded, Reading::LastDayExcluded] {
            assert_eq!(dates(wrong, (100, 100), &beside), []);
        }
    }

    #[test]
    fn turned_days_include_no_date() {
        let turned = with_days(101, 100);
        assert!((0..=65_535).all(|date| !turned.comes_on(date)));
    }

    #[test]
    fn nobody_beyond_the_table_comes() {
        let shop = small_shop();
        let comes = |user| shop.comes_on(Reading::Paper, user, 0);
        assert!(comes(3) && !comes(4) && !comes(255));
    }
}
