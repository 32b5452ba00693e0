//! The check of one user's role assignment parameter: whether it passes, and how
//! many identity codes are tried.

use crate::answer::Answer;
use crate::reading::Reading;
use crate::refusal::Refusal;
use crate::roles::{RoleSet, MOST_ROLES};

/// Done for the parameter of a set of roles below R, else refusal 5; both carry
/// how many codes are tried: none for 1, R for a parameter that gets 5, else the
/// highest role's number plus one. An R above 8 is read as 8.
pub fn parameter(parameter: u32, roles: u32) -> Answer {
    parameter_as(Reading::Paper, parameter, roles)
}

/// The check by this reading.
pub fn parameter_as(reading: Reading, parameter: u32, roles: u32) -> Answer {
    let roles = roles.min(MOST_ROLES.into()) as u8;
    match RoleSet::from_parameter(parameter, roles) {
        Some(held) => Answer::done(tried(reading, held)),
        None => Answer::refused_with(Refusal::Users, tried_in_vain(reading, roles)),
    }
}

/// How many codes are tried for the parameter of these roles.
fn tried(reading: Reading, held: RoleSet) -> usize {
    let Some(highest) = held.roles().last() else {
        return usize::from(reading == Reading::TryForNone);
    };
    match reading {
        Reading::RolesCounted => held.roles().count(),
        Reading::HighestItself => highest.into(),
        _ => usize::from(highest) + 1,
    }
}

/// How many codes are tried for a parameter that gets 5.
fn tried_in_vain(reading: Reading, roles: u8) -> usize {
    usize::from(roles) + usize::from(reading == Reading::EndCounted)
}

#[cfg(test)]
mod tests {
    use super::*;
    use crate::check::check;
    use crate::samples::*;

    const CODES: [u32; 8] = [3, 5, 7, 11, 13, 17, 19, 23];

    /// The refusal and the number of codes tried.
    fn answer(number: u32, roles: u32) -> (u8, u32) {
        let Answer { refusal, count } = parameter(number, roles);
        (refusal, count)
    }

    /// The parameters of all sets of eight roles.
    fn products() -> impl Iterator<Item = u32> {
        let sets = (0..=u8::MAX).filter_map(|bits| RoleSet::from_bits(bits, 8));
        sets.map(RoleSet::parameter)
    }

    #[test]
    fn none_is_tried_for_1() {
        for roles in 0..=8 {
            assert_eq!(answer(1, roles), (0, 0));
        }
    }

    #[test]
    fn a_code_is_tried_after_those_before_it() {
        for (role, code) in (0..).zip(CODES) {
            for roles in 0..=8 {
                let expected = if role < roles {
                    (0, role + 1)
                } else {
                    (5, roles)
                };
                assert_eq!(answer(code, roles), expected);
            }
        }
    }

    /// Roles 0 and 7, roles 1 and 3, all of three, all but the first.
    #[test]
    fn the_highest_role_tells_how_many_are_tried() {
        assert_eq!(answer(69, 8), (0, 8));
        assert_eq!(answer(55, 8), (0, 4));
        assert_eq!(answer(105, 8), (0, 3));
        assert_eq!(answer(37_182_145, 8), (0, 8));
    }

    /// The paper's marked case 9.
    #[test]
    fn parameters_of_three_roles() {
        assert_eq!([1, 105].map(|number| answer(number, 3)), [(0, 0), (0, 3)]);
        assert_eq!([0, 9, 11].map(|number| answer(number, 3)), [(5, 3); 3]);
    }

    #[test]
    fn all_are_tried_for_a_parameter_that_is_refused() {
        let refused = [0, 2, 9, 29, 87, 111_546_434, 334_639_305, u32::MAX];
        for number in refused {
            for roles in 0..=8 {
                assert_eq!(answer(number, roles), (5, roles));
            }
        }
    }

    #[test]
    fn above_8_roles_are_8() {
        for roles in [9, 10, 255, 256, 257, 264, 65_536, u32::MAX] {
            for number in products().chain([0, 2, 9, 29]) {
                assert_eq!(answer(number, roles), answer(number, 8));
            }
        }
    }

    #[test]
    fn of_no_roles_1_passes_alone() {
        assert_eq!(answer(1, 0), (0, 0));
        for number in products().filter(|&number| number != 1) {
            assert_eq!(answer(number, 0), (5, 0));
        }
    }

    /// By the request's first sentence: code after code, until the rest is 1.
    fn by_dividing(number: u32, roles: u32) -> (u8, u32) {
        let (mut rest, mut tried) = (number, 0);
        while rest != 1 && tried < roles {
            let code = CODES[tried as usize];
            if rest.is_multiple_of(code) {
                rest /= code;
            }
            tried += 1;
        }
        (if rest == 1 { 0 } else { 5 }, tried)
    }

    #[test]
    fn so_many_are_tried_until_the_rest_is_1() {
        for roles in 0..=8 {
            let beside = products().flat_map(|product| [product - 1, product, product + 1]);
            for number in beside.chain(0..2_000) {
                let divided = by_dividing(number, roles);
                assert_eq!(answer(number, roles), divided, "{number}");
            }
        }
    }

    /// Eight users with this parameter, of three roles.
    #[test]
    fn the_base_check_refuses_the_same() {
        let beside = products().flat_map(|product| [product - 1, product, product + 1]);
        for number in beside.chain(0..200) {
            let (refusal, _) = answer(number, 3);
            assert_eq!(check(&eight_users([number; 8])), refusal);
        }
    }

    /// By a reading: parameter 1, roles 0, 1, and 0 and 2, and one refused.
    fn by(reading: Reading) -> [(u8, u32); 5] {
        [1, 3, 5, 21, 9].map(|number| {
            let Answer { refusal, count } = parameter_as(reading, number, 3);
            (refusal, count)
        })
    }

    #[test]
    fn wrong_readings_count_otherwise() {
        let [none, first, second, two, refused] = by(Reading::Paper);
        assert_eq!([none, first, second], [(0, 0), (0, 1), (0, 2)]);
        assert_eq!([two, refused], [(0, 3), (5, 3)]);
        let wrong = Reading::TryForNone;
        assert_eq!(by(wrong), [(0, 1), first, second, two, refused]);
        let wrong = Reading::RolesCounted;
        assert_eq!(by(wrong), [none, first, (0, 1), (0, 2), refused]);
        let wrong = Reading::HighestItself;
        assert_eq!(by(wrong), [none, (0, 0), (0, 1), (0, 2), refused]);
        let wrong = Reading::EndCounted;
        assert_eq!(by(wrong), [none, first, second, two, (5, 4)]);
    }
}
