//! Every set of roles for every number of roles.

use compare::parameters::expect_parameter;
use compare::products::product;

/// Numbers of roles above 8.
const MORE: [u32; 5] = [9, 255, 256, 257, u32::MAX];

/// A set passes if it has no bit at R or above; its highest bit tells how many
/// codes are tried.
fn expected(set: u8, roles: u32) -> (u8, u32) {
    let end = 8 - set.leading_zeros();
    if end <= roles {
        (0, end)
    } else {
        (5, roles)
    }
}

#[test]
fn every_set_for_0_to_8_roles() {
    for set in 0..=u8::MAX {
        for roles in 0..=8 {
            expect_parameter(product(set), roles, expected(set, roles));
        }
    }
}

#[test]
fn every_set_passes_for_more_roles() {
    for set in 0..=u8::MAX {
        for roles in MORE {
            expect_parameter(product(set), roles, expected(set, 8));
        }
    }
}
