//! The check of one user's parameter.

use crate::answers;
use crate::refusal::{result_of, Refusal};

/// What the check of a parameter says. A parameter that is refused has a number
/// of codes tried as well.
#[derive(Clone, Copy, Debug, PartialEq, Eq, Hash)]
pub struct Tried {
    /// Whether the parameter passes, or [`Refusal::Users`].
    pub result: Result<(), Refusal>,
    /// How many codes were tried, 0 to 8.
    pub tried: u32,
}

/// Whether this is a user's parameter where there are so many roles: a product
/// of different codes of roles below that number, or 1 for no role. And how many
/// codes the check tries. No base is consulted, and a user's days play no part.
///
/// Roles 0 to 7 have the codes 3, 5, 7, 11, 13, 17, 19 and 23. The check tries
/// them in this order, divides out each one that divides what is left of the
/// parameter, and ends as soon as 1 is left. So none is tried for 1; of any other
/// parameter that passes, as many as the highest role's number plus one; and of
/// one that gets [`Refusal::Users`], the codes of all roles.
///
/// More than 8 roles are read as 8. The numbers aren't cut: 256 roles are read so
/// too. With 0 roles 1 alone passes, and no code is tried. A base has 1 to 8, and
/// [`check`](crate::check) refuses it for the same parameters with as many.
///
/// ```
/// use release::{check_parameter, Refusal, Tried};
///
/// // Roles 0 and 2 of three: the codes 3, 5 and 7 are tried.
/// let passed = check_parameter(21, 3);
/// assert_eq!(passed, Tried { result: Ok(()), tried: 3 });
///
/// // The first code alone, of eight roles.
/// assert_eq!(check_parameter(3, 8), Tried { result: Ok(()), tried: 1 });
///
/// // 9 has a code twice.
/// let refused = check_parameter(9, 3);
/// assert_eq!(refused, Tried { result: Err(Refusal::Users), tried: 3 });
/// ```
pub fn check_parameter(parameter: u32, roles: u32) -> Tried {
    let answer = answers::parameter(parameter, roles);
    Tried {
        result: result_of(answer.refusal),
        tried: answer.count,
    }
}

#[cfg(test)]
mod tests {
    use super::*;

    fn passed(tried: u32) -> Tried {
        let result = Ok(());
        Tried { result, tried }
    }

    fn refused(tried: u32) -> Tried {
        let result = Err(Refusal::Users);
        Tried { result, tried }
    }

    #[test]
    fn no_code_is_tried_for_1() {
        for roles in 0..=9 {
            assert_eq!(check_parameter(1, roles), passed(0));
        }
    }

    #[test]
    fn the_highest_role_tells_how_many_are_tried() {
        assert_eq!(check_parameter(3, 3), passed(1));
        assert_eq!(check_parameter(5, 3), passed(2));
        assert_eq!(check_parameter(15, 8), passed(2));
        assert_eq!(check_parameter(69, 8), passed(8));
        assert_eq!(check_parameter(111_546_435, 8), passed(8));
    }

    #[test]
    fn all_are_tried_for_a_parameter_that_is_refused() {
        for parameter in [0, 2, 9, 29, 111_546_434, u32::MAX] {
            for roles in 0..=8 {
                assert_eq!(check_parameter(parameter, roles), refused(roles));
            }
        }
        assert_eq!(check_parameter(11, 3), refused(3));
        assert_eq!(check_parameter(11, 4), passed(4));
    }

    #[test]
    fn numbers_are_not_cut() {
        for roles in [9, 255, 256, 257, u32::MAX] {
            assert_eq!(check_parameter(23, roles), passed(8));
            assert_eq!(check_parameter(9, roles), refused(8));
        }
        for parameter in [257, 259, 65_539] {
            assert_eq!(check_parameter(parameter, 8), refused(8));
        }
    }
}
