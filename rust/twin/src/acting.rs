//! Who holds a role, and who may act in it.

use crate::CODES;

/// For each code its inverse modulo 2^32, and the largest quotient by it. Times
/// the inverse, a multiple of the code gives its quotient, and any other number
/// more than the largest.
const DIVISORS: [(u32, u32); 8] = divisors();

const fn divisors() -> [(u32, u32); 8] {
    let mut divisors = [(0, 0); 8];
    let mut role = 0;
    while role < 8 {
        divisors[role] = (inverse(CODES[role]), u32::MAX / CODES[role]);
        role += 1;
    }
    divisors
}

/// Each step doubles the number of bits that are right; an odd number is its
/// own inverse to 3 bits.
const fn inverse(code: u32) -> u32 {
    let mut inverse = code;
    let mut bits = 3;
    while bits < 32 {
        inverse = inverse.wrapping_mul(2u32.wrapping_sub(code.wrapping_mul(inverse)));
        bits *= 2;
    }
    inverse
}

/// Whether the role's code divides the parameter.
#[inline(always)]
pub fn holds_role(parameter: u32, role: usize) -> bool {
    let (inverse, most) = DIVISORS[role];
    parameter.wrapping_mul(inverse) <= most
}

/// The roles that a user may act in, as a set: those held, and their juniors.
#[inline(always)]
pub fn acting_roles(parameter: u32, juniors: &[u8; 8]) -> u8 {
    let opened = |role: usize| u8::from(holds_role(parameter, role)) * (1 << role | juniors[role]);
    (0..8).fold(0, |roles, role| roles | opened(role))
}

#[cfg(test)]
mod tests {
    use super::*;

    #[test]
    fn a_code_divides_its_multiples_alone() {
        for (role, code) in CODES.into_iter().enumerate() {
            let numbers = (0..100_000).chain(u32::MAX - 100_000..=u32::MAX);
            for parameter in numbers {
                assert_eq!(holds_role(parameter, role), parameter % code == 0);
            }
        }
    }

    /// 0 over 2 over 5; 3 over 7.
    #[test]
    fn roles_held_open_their_juniors() {
        let juniors = [0b10_0100, 0, 0b10_0000, 0b1000_0000, 0, 0, 0, 0];
        for (parameter, roles) in [
            (1, 0),
            (3, 0b0010_0101),
            (5, 0b0000_0010),
            (7, 0b0010_0100),
            (11, 0b1000_1000),
            (5 * 7 * 11, 0b1010_1110),
            (17 * 23, 0b1010_0000),
        ] {
            assert_eq!(acting_roles(parameter, &juniors), roles);
        }
    }
}
