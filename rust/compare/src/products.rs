//! Products of identity codes, and random parameters.

use crate::builder::CODES;
use crate::parameters::Checked;
use crate::random::Random;
use crate::valid::times;

/// The product of the codes of a set of roles, bit r for role r.
pub fn product(set: u8) -> u32 {
    let held = (0..).zip(CODES).filter(|(role, _)| set >> role & 1 == 1);
    held.map(|(_, code)| code).product()
}

/// Factors that no parameter has: the prime before the codes, and those behind.
pub const OTHER_PRIMES: [u32; 3] = [2, 29, 31];

/// Random parameters of all kinds, mostly for 0 to 8 roles.
pub fn random_parameters(seed: u64, cases: usize, mut attempt: impl FnMut(Checked)) {
    let mut random = Random::new(seed);
    for _ in 0..cases {
        let roles = any_roles(&mut random);
        let parameter = any_parameter(&mut random, roles);
        attempt(Checked { parameter, roles });
    }
}

/// Mostly 0 to 8.
fn any_roles(random: &mut Random) -> u32 {
    let roles = random.between(0, 8).into();
    if random.chance(12) {
        random.pick(&[9, 10, 16, 255, 256, 256 + roles, 65_536 + roles, u32::MAX])
    } else {
        roles
    }
}

/// Mostly the product of a set of roles below R, one near such a product, or any
/// number of 4 bytes.
fn any_parameter(random: &mut Random, roles: u32) -> u32 {
    let held = set_below(random, roles);
    match random.below(12) {
        0..=4 => product(held),
        5 => product(random.byte()),
        6 => with_factor(product(held), random.pick(&CODES)),
        7 => with_factor(product(held), random.pick(&OTHER_PRIMES)),
        8 => repeated(random),
        9 => random.pick(&[product(held) - 1, product(held) + 1]),
        10 => random.below(1_000) as u32,
        _ => random.below(1 << 32) as u32,
    }
}

/// A set of roles below R whose highest is any of them, or none.
fn set_below(random: &mut Random, roles: u32) -> u8 {
    let end = random.below(roles.min(8) as usize + 1);
    random.below(1 << end) as u8
}

/// The product, if it has 4 bytes.
fn with_factor(product: u32, factor: u32) -> u32 {
    product.checked_mul(factor).unwrap_or(product)
}

/// The product of up to nine random codes, repeats and all.
fn repeated(random: &mut Random) -> u32 {
    let count = random.below(10);
    let codes = times(count, || random.pick(&CODES));
    codes.into_iter().fold(1, with_factor)
}

#[cfg(test)]
mod tests {
    use super::*;
    use model::{Reading, RoleSet};

    #[test]
    fn products_are_the_models_parameters() {
        for set in 0..=u8::MAX {
            let roles = RoleSet::from_bits(set, 8).expect("eight roles are there");
            assert_eq!(product(set), roles.parameter());
        }
    }

    #[test]
    fn a_product_keeps_to_4_bytes() {
        assert_eq!(with_factor(15, 7), 105);
        assert_eq!(with_factor(1 << 31, 3), 1 << 31);
    }

    #[test]
    fn every_answer_comes_up_often() {
        let mut passed = [0; 9];
        let mut refused = 0;
        random_parameters(182, 10_000, |checked| {
            match checked.by_model(Reading::Paper) {
                (0, tried) => passed[tried as usize] += 1,
                _ => refused += 1,
            }
        });
        assert!(passed.iter().all(|&times| times >= 100), "{passed:?}");
        assert!(refused >= 2_000, "{refused}");
    }

    /// How often a wrong reading answers otherwise.
    fn differences(reading: Reading) -> usize {
        let mut found = 0;
        random_parameters(183, 2_000, |checked| {
            let by = |reading| checked.by_model(reading);
            found += usize::from(by(reading) != by(Reading::Paper));
        });
        found
    }

    #[test]
    fn every_wrong_reading_comes_up() {
        for reading in Reading::WRONG_OF_PARAMETERS {
            let found = differences(reading);
            println!("{reading:?}: {found}");
            assert!(found >= 100, "{reading:?}: {found}");
        }
    }
}
