//! The base check.

use crate::base::Base;
use crate::reading::Reading;
use crate::refusal::number;

/// 0 for a base that passes, else the first of refusals 1 to 9 that applies.
pub fn check(base: &[u8]) -> u8 {
    check_as(Reading::Paper, base)
}

/// The check by this reading.
pub fn check_as(reading: Reading, base: &[u8]) -> u8 {
    number(Base::read_as(reading, base))
}

#[cfg(test)]
mod tests {
    use super::*;
    use crate::samples::SMALL_SHOP;

    /// The answer for the small shop with some bytes set: (place, value).
    fn with(changes: &[(usize, u8)]) -> u8 {
        let mut base = SMALL_SHOP;
        for &(place, value) in changes {
            base[place] = value;
        }
        check(&base)
    }

    #[test]
    fn the_small_shop_passes() {
        assert_eq!(check(&SMALL_SHOP), 0);
    }

    #[test]
    fn a_base_has_36_to_2460_bytes() {
        assert_eq!(check(&[]), 1);
        assert_eq!(check(&SMALL_SHOP[95..]), 1);
        assert_eq!(check(&[0; 36]), 2);
        assert_eq!(check(&[0; 2460]), 2);
        assert_eq!(check(&[0; 2461]), 1);
    }

    #[test]
    fn the_letters_come_before_the_rest_of_the_trailer() {
        assert_eq!(with(&[(129, b'q')]), 2);
        assert_eq!(with(&[(122, 0)]), 3);
        assert_eq!(with(&[(122, 0), (129, b'q')]), 2);
    }

    #[test]
    fn the_old_letters_are_refused() {
        assert_eq!(with(&[(129, b'P')]), 2);
        let mut base = SMALL_SHOP;
        base[129] = b'P';
        assert_eq!(check_as(Reading::OldLetters, &base), 0);
        assert_eq!(check_as(Reading::OldLetters, &SMALL_SHOP), 0);
        base[129] = b'R';
        assert_eq!(check_as(Reading::OldLetters, &base), 2);
    }

    /// The small shop in the form before users had days: the parameter alone, and
    /// what lies behind the four users 16 bytes earlier.
    #[test]
    fn the_old_form_is_refused() {
        let mut old = SMALL_SHOP;
        for place in [102, 106, 110, 114, 118] {
            old[place] -= 16;
        }
        let parameters = [4, 12, 20, 28].map(|user| &SMALL_SHOP[user..user + 4]);
        let old = [&old[..4], &parameters.concat(), &old[36..]].concat();
        assert_eq!(old.len() + 16, SMALL_SHOP.len());
        assert_eq!(check(&old), 3);
        let with_old_letters = [&old[..old.len() - 1], b"P"].concat();
        assert_eq!(check(&with_old_letters), 2);
    }

    #[test]
    fn the_trailer_keeps_its_rules() {
        assert_eq!(with(&[(122, 9)]), 3);
        assert_eq!(with(&[(123, 1)]), 3);
        assert_eq!(with(&[(124, 1)]), 3);
        assert_eq!(with(&[(125, 1)]), 3);
        assert_eq!(with(&[(94, 1)]), 3);
        assert_eq!(with(&[(118, 93)]), 3);
        assert_eq!(with(&[(120, 1)]), 3);
    }

    #[test]
    fn a_senior_is_below_its_junior_and_the_junior_below_r() {
        assert_eq!(with(&[(2, 2)]), 4);
        assert_eq!(with(&[(2, 0)]), 0);
        assert_eq!(with(&[(3, 3)]), 4);
    }

    #[test]
    fn a_parameter_is_a_product_of_different_codes_below_r() {
        for (parameter, answer) in [(1, 0), (105, 0), (0, 5), (9, 5), (11, 5)] {
            assert_eq!(with(&[(4, parameter)]), answer);
        }
    }

    /// The first user's days; those of the small shop are 0 and 65535.
    fn with_days(reading: Reading, first: u16, last: u16) -> u8 {
        let mut base = SMALL_SHOP;
        base[8..10].copy_from_slice(&first.to_le_bytes());
        base[10..12].copy_from_slice(&last.to_le_bytes());
        check_as(reading, &base)
    }

    #[test]
    fn a_first_day_is_not_above_the_last() {
        for day in [0, 1, 255, 256, 32_768, 65_535] {
            assert_eq!(with_days(Reading::Paper, day, day), 0);
        }
        let rising = [(0, 1), (255, 256), (0x00ff, 0x0100), (65_534, 65_535)];
        for (first, last) in rising {
            assert_eq!(with_days(Reading::Paper, first, last), 0);
            assert_eq!(with_days(Reading::Paper, last, first), 5);
            assert_eq!(with_days(Reading::DaysTurned, last, first), 0);
        }
    }

    /// The last user's days are 1 and 0.
    #[test]
    fn a_bad_parameter_and_turned_days_get_the_same() {
        let [first, low, high] = [(32, 1), (34, 0), (35, 0)];
        assert_eq!(with(&[first, low, high]), 5);
        assert_eq!(with(&[(4, 9), first, low, high]), 5);
        assert_eq!(with(&[(3, 3), first, low, high]), 4);
        assert_eq!(with(&[(38, 1), first, low, high]), 5);
    }

    #[test]
    fn each_table_is_checked_to_its_end_before_the_next() {
        let faults = [(3, 3), (4, 0), (38, 1), (54, 16), (72, 0)];
        for (first, answer) in (4..=8).enumerate() {
            assert_eq!(with(&faults[first..]), answer);
        }
    }
}
