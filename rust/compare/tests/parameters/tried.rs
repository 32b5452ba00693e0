//! How many codes are tried for a parameter that passes: none for 1, else the
//! highest role's number plus one.

use crate::setups::*;
use compare::builder::CODES;

/// The product of the codes of roles from the first on, up to the end.
fn product_of(first: usize, end: usize) -> u32 {
    CODES[first..end].iter().product()
}

#[test]
fn parameter_1_tries_none() {
    for roles in 0..=8 {
        expect_passed(1, roles, 0);
    }
}

#[test]
fn parameter_3_tries_one() {
    for roles in 1..=8 {
        expect_passed(3, roles, 1);
    }
}

#[test]
fn parameter_23_tries_eight() {
    expect_passed(23, 8, 8);
}

#[test]
fn each_code_is_tried_after_those_before_it() {
    for (role, code) in (0..).zip(CODES) {
        for roles in role + 1..=8 {
            expect_passed(code, roles, role + 1);
        }
    }
}

#[test]
fn two_roles_try_up_to_the_higher() {
    for (higher, code) in CODES.into_iter().enumerate() {
        for lower in &CODES[..higher] {
            let tried = higher as u32 + 1;
            expect_passed(lower * code, tried, tried);
            expect_passed(lower * code, 8, tried);
        }
    }
}

/// Of 3 times 23 two codes divide, and eight are tried.
#[test]
fn codes_that_do_not_divide_are_tried_too() {
    expect_passed(69, 8, 8);
    expect_passed(3 * 7, 3, 3);
    expect_passed(5 * 19, 8, 7);
}

/// 255 is 3 times 5 times 17; 17 is the code of role 5.
#[test]
fn parameter_255_tries_six() {
    for roles in 6..=8 {
        expect_passed(255, roles, 6);
    }
}

#[test]
fn all_roles_try_all() {
    for roles in 1..=8 {
        expect_passed(product_of(0, roles), roles as u32, roles as u32);
    }
}

#[test]
fn all_roles_but_the_first_try_all() {
    for roles in 2..=8 {
        expect_passed(product_of(1, roles), roles as u32, roles as u32);
    }
}

#[test]
fn the_last_role_alone_tries_all() {
    for roles in 1..=8 {
        expect_passed(CODES[roles - 1], roles as u32, roles as u32);
    }
}

#[test]
fn all_roles_but_the_last_end_before_it() {
    for roles in 1..=8 {
        expect_passed(product_of(0, roles - 1), roles as u32, roles as u32 - 1);
    }
}

/// A parameter tries as many whatever R is, if it passes.
#[test]
fn more_roles_try_no_more() {
    for end in 1..=8 {
        for roles in end..=8 {
            expect_passed(product_of(0, end as usize), roles, end);
        }
    }
}

#[test]
fn the_largest_parameter_tries_eight() {
    expect_passed(ALL_ROLES, 8, 8);
    expect_passed(ALL_ROLES / 3, 8, 8);
    expect_passed(ALL_ROLES / 23, 8, 7);
}

/// Users 0 to 3 of three roles: 3, 5, 7, 7.
#[test]
fn the_small_shops_users() {
    for (parameter, tried) in [(3, 1), (5, 2), (7, 3)] {
        expect_passed(parameter, 3, tried);
    }
}

/// The paper's marked case 9.
#[test]
fn the_marked_parameters() {
    expect_passed(1, 3, 0);
    expect_passed(105, 3, 3);
    for parameter in [0, 9, 11] {
        expect_refused(parameter, 3);
    }
}

/// The number alone doesn't tell whether the parameter passes.
#[test]
fn all_tried_with_and_without_a_refusal() {
    for roles in 1..=8 {
        let last = CODES[roles as usize - 1];
        expect_passed(last, roles, roles);
        expect_refused(last * last, roles);
    }
}
