//! Refusal 5 has the codes of all roles tried, whatever the parameter.

use crate::setups::*;
use compare::builder::CODES;
use compare::products::{product, OTHER_PRIMES};

#[test]
fn parameter_0_is_refused() {
    expect_always_refused(0);
}

#[test]
fn parameter_2_is_refused() {
    expect_always_refused(2);
}

#[test]
fn powers_of_2_are_refused() {
    for power in 1..32 {
        expect_always_refused(1 << power);
    }
}

#[test]
fn codes_at_r_and_above_are_refused() {
    for (role, code) in (0..).zip(CODES) {
        for roles in 0..=role {
            expect_refused(code, roles);
        }
    }
}

/// The roles that are there are divided out; the other one is left.
#[test]
fn a_product_with_a_code_at_r_or_above_is_refused() {
    for roles in 0..8 {
        let below: u32 = CODES[..roles].iter().product();
        for above in &CODES[roles..] {
            expect_refused(below * above, roles as u32);
        }
    }
}

#[test]
fn the_largest_parameter_needs_eight_roles() {
    for roles in 0..8 {
        expect_refused(ALL_ROLES, roles);
    }
}

#[test]
fn squares_of_codes_are_refused() {
    for code in CODES {
        expect_always_refused(code * code);
    }
}

#[test]
fn cubes_of_codes_are_refused() {
    for code in CODES {
        expect_always_refused(code * code * code);
    }
}

/// 3 to the power of 20 is the largest of 4 bytes.
#[test]
fn all_powers_of_codes_are_refused() {
    for code in CODES {
        let powers = (2..=20).map_while(|power| code.checked_pow(power));
        powers.for_each(expect_always_refused);
    }
    expect_always_refused(3_486_784_401);
}

#[test]
fn a_code_twice_in_a_product_is_refused() {
    for set in 0..=u8::MAX {
        let held = (0..).zip(CODES).filter(|(role, _)| set >> role & 1 == 1);
        for (_, code) in held {
            expect_always_refused(code * product(set));
        }
    }
}

#[test]
fn a_product_with_another_prime_is_refused() {
    for product in all_products() {
        for prime in OTHER_PRIMES {
            expect_always_refused(product * prime);
        }
    }
}

#[test]
fn the_primes_behind_the_codes_are_refused() {
    for prime in [29, 31, 37, 41, 43, 47, 53] {
        expect_always_refused(prime);
        expect_always_refused(3 * prime);
    }
}

#[test]
fn the_neighbours_of_the_largest_parameter_are_refused() {
    for distance in 1..=9 {
        expect_always_refused(ALL_ROLES - distance);
        expect_always_refused(ALL_ROLES + distance);
    }
}

/// But where one product stands beside another, as 3 and 5 do.
#[test]
fn the_neighbours_of_every_parameter_are_refused() {
    let products: Vec<u32> = all_products().collect();
    let beside = products.iter().flat_map(|product| {
        let below = product.saturating_sub(2)..*product;
        below.chain(product + 1..=product + 2)
    });
    let others = beside.filter(|number| !products.contains(number));
    others.for_each(expect_always_refused);
}

#[test]
fn multiples_of_the_largest_parameter_are_refused() {
    for factor in 2..=38 {
        expect_always_refused(factor * ALL_ROLES);
    }
}

#[test]
fn the_largest_number_is_refused() {
    expect_always_refused(u32::MAX);
    expect_always_refused(u32::MAX - 1);
}

/// 2,147,483,647 and 4,294,967,291 are primes.
#[test]
fn large_primes_are_refused() {
    for prime in [65_537, 2_147_483_647, 4_294_967_291] {
        expect_always_refused(prime);
    }
}

#[test]
fn the_numbers_about_two_to_the_31_are_refused() {
    for number in (1 << 31) - 4..=(1 << 31) + 4 {
        expect_always_refused(number);
    }
}

#[test]
fn all_four_bytes_of_a_parameter_count() {
    for parameter in [1, 3, 5, 7, 15, 23, 105] {
        for byte in 1..4 {
            expect_always_refused(parameter + (1 << (8 * byte)));
        }
    }
}

/// The number that a code takes to 1 where only 4 bytes are kept. Of an odd code
/// three bits of the code itself are right, and each step doubles them.
fn inverse(code: u32) -> u32 {
    (0..4).fold(code, |number, _| {
        number.wrapping_mul(2_u32.wrapping_sub(code.wrapping_mul(number)))
    })
}

#[test]
fn the_inverses_of_codes_are_refused() {
    for code in CODES {
        assert_eq!(code.wrapping_mul(inverse(code)), 1);
        expect_always_refused(inverse(code));
    }
}
