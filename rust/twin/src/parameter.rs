//! The check of one user's parameter.

use model::Answer;

use crate::CODES;

/// The codes' inverses modulo 2^32.
const INVERSES: [u32; 8] = [
    2_863_311_531,
    3_435_973_837,
    3_067_833_783,
    3_123_612_579,
    3_303_820_997,
    4_042_322_161,
    678_152_731,
    3_921_491_879,
];

/// 0 if dividing by codes leaves 1, else 5; and how many codes were tried.
pub fn parameter(parameter: u32, roles: u32) -> Answer {
    let (rest, count) = divided(parameter, roles);
    let refusal = if rest == 1 { 0 } else { 5 };
    Answer { refusal, count }
}

/// Tries the codes of roles below R in role order and divides by each once, until
/// the rest is 1: the rest, and how many were tried. Of the multiples of a code,
/// and of no other number, the product with its inverse is small enough to be a
/// quotient, and is theirs.
#[inline(always)]
pub fn divided(parameter: u32, roles: u32) -> (u32, u32) {
    let mut rest = parameter;
    for (role, (code, inverse)) in (0..8).zip(CODES.into_iter().zip(INVERSES)) {
        if rest == 1 || roles <= role {
            return (rest, role);
        }
        let quotient = rest.wrapping_mul(inverse);
        if quotient <= u32::MAX / code {
            rest = quotient;
        }
    }
    (rest, 8)
}

#[cfg(test)]
mod tests {
    use super::*;

    /// The product of each set of codes, and numbers beside it.
    fn numbers() -> impl Iterator<Item = u32> {
        let products = (0..256).map(|set| {
            let held = (0..8).zip(CODES).filter(|(role, _)| set >> role & 1 == 1);
            held.map(|(_, code)| code).product::<u32>()
        });
        products.flat_map(|product| [product - 1, product, product + 1, 3 * product, 29 * product])
    }

    #[test]
    fn a_parameter_is_the_models() {
        for roles in (0..=9).chain([255, 256, 257, u32::MAX]) {
            for number in numbers().chain(0..1_000).chain([1 << 31, u32::MAX]) {
                let expected = model::parameter(number, roles);
                assert_eq!(parameter(number, roles), expected, "{number}, {roles}");
            }
        }
    }
}
