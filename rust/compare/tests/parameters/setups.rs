//! What is expected of parameters.

use compare::parameters::expect_parameter;
use compare::products::product;

/// The parameter of a user who holds all eight roles.
pub const ALL_ROLES: u32 = 111_546_435;

/// Expects this parameter to pass after so many codes.
pub fn expect_passed(parameter: u32, roles: u32, tried: u32) {
    expect_parameter(parameter, roles, (0, tried));
}

/// Expects refusal 5, which carries the number of roles.
pub fn expect_refused(parameter: u32, roles: u32) {
    expect_parameter(parameter, roles, (5, roles));
}

/// Expects it for every number of roles from 0 to 8.
pub fn expect_always_refused(parameter: u32) {
    for roles in 0..=8 {
        expect_refused(parameter, roles);
    }
}

/// The products of all sets of eight roles: 256 different numbers.
pub fn all_products() -> impl Iterator<Item = u32> {
    (0..=u8::MAX).map(product)
}
