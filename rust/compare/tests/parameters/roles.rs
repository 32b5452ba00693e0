//! The number of roles, as a number of 4 bytes that isn't cut. A base has 1 to 8;
//! 0 is taken as it is, and more than 8 as 8.

use crate::setups::*;
use compare::builder::CODES;
use compare::parameters::expect_parameter;

/// Expects as of eight roles.
fn expect_as_eight(roles: u32) {
    expect_passed(1, roles, 0);
    for (role, code) in (0..).zip(CODES) {
        expect_passed(code, roles, role + 1);
        expect_parameter(code * code, roles, (5, 8));
    }
    expect_passed(ALL_ROLES, roles, 8);
    for parameter in [0, 2, 29, u32::MAX] {
        expect_parameter(parameter, roles, (5, 8));
    }
}

#[test]
fn of_no_roles_parameter_1_passes() {
    expect_passed(1, 0, 0);
}

#[test]
fn of_no_roles_every_other_is_refused_and_none_tried() {
    let others = all_products().filter(|&product| product != 1);
    for parameter in others.chain([0, 2, 9, 29, u32::MAX]) {
        expect_parameter(parameter, 0, (5, 0));
    }
}

#[test]
fn of_one_role_1_and_3_pass() {
    expect_passed(1, 1, 0);
    expect_passed(3, 1, 1);
    for parameter in all_products().filter(|&product| product > 3) {
        expect_refused(parameter, 1);
    }
}

#[test]
fn eight_roles_are_the_most() {
    expect_as_eight(8);
}

#[test]
fn nine_roles_are_read_as_8() {
    expect_as_eight(9);
    expect_as_eight(10);
}

#[test]
fn there_is_no_ninth_code() {
    for roles in [9, 10, 11] {
        for prime in [29, 31, 37] {
            expect_parameter(prime, roles, (5, 8));
        }
    }
}

#[test]
fn roles_255_are_read_as_8() {
    expect_as_eight(127);
    expect_as_eight(128);
    expect_as_eight(255);
}

#[test]
fn roles_256_are_not_cut_to_0() {
    expect_as_eight(256);
}

#[test]
fn roles_257_to_264_are_not_cut_to_1_to_8() {
    for roles in 1..=8 {
        expect_as_eight(256 + roles);
        expect_as_eight(65_536 + roles);
        expect_as_eight((1 << 31) + roles);
    }
}

#[test]
fn no_power_of_2_is_cut() {
    for power in 3..32 {
        expect_as_eight(1 << power);
        expect_as_eight((1 << power) + 3);
    }
}

#[test]
fn the_largest_number_of_roles_is_read_as_8() {
    expect_as_eight(u32::MAX);
}
