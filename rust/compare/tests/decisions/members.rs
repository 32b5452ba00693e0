//! Refusals 14 and 15: a user in two entries, and a role not held where no role
//! is senior.

use crate::setups::*;
use compare::builder::*;

#[test]
fn a_user_twice_in_the_same_role_is_refused() {
    expect(&open_base(2), &[[0, 1]], 0);
    expect(&open_base(2), &[[0, 1], [0, 1]], 14);
}

/// The user holds both roles, and both have weight.
#[test]
fn a_user_in_two_different_roles_is_refused() {
    expect(&open_base(2), &[[0, 0]], 0);
    expect(&open_base(2), &[[0, 1]], 0);
    expect(&open_base(2), &[[0, 0], [0, 1]], 14);
    expect(&open_base(2), &[[0, 1], [0, 0]], 14);
}

#[test]
fn two_users_in_the_same_role_are_granted() {
    expect(&open_base(2), &[[0, 1], [1, 1]], 0);
}

#[test]
fn a_user_twice_with_others_between_is_refused() {
    expect(&open_base(2), &[[3, 0], [1, 1], [2, 0], [3, 1]], 14);
    expect(&open_base(2), &[[1, 0], [3, 1], [3, 0], [2, 1]], 14);
}

#[test]
fn a_user_six_times_is_refused() {
    expect(&open_base(8), &[0, 1, 2, 3, 4, 5].map(|role| [4, role]), 14);
}

#[test]
fn a_user_with_parameter_1_holds_no_role() {
    for roles in 1..=8 {
        let mut base = open_base(roles);
        base.users[2].parameter = 1;
        for role in 0..roles {
            expect(&base, &[[2, role]], 15);
            expect(&base, &[[1, 0], [2, role]], 15);
        }
    }
}

/// Of eight roles, all with weight, each code opens its own alone.
#[test]
fn a_code_is_held_in_its_own_role_alone() {
    for (held, code) in (0..).zip(CODES) {
        let mut base = open_base(8);
        base.users[0].parameter = code;
        for role in 0..8 {
            let answer = if role == held { 0 } else { 15 };
            expect(&base, &[[0, role]], answer);
        }
    }
}

/// All codes but one.
#[test]
fn a_missing_code_is_the_only_role_not_held() {
    for (missing, code) in (0..).zip(CODES) {
        let mut base = open_base(8);
        base.users[0].parameter = 111_546_435 / code;
        for role in 0..8 {
            let answer = if role == missing { 15 } else { 0 };
            expect(&base, &[[0, role]], answer);
        }
    }
}

#[test]
fn parameter_105_holds_three_roles() {
    let mut base = open_base(4);
    base.users[0].parameter = 105;
    for (role, answer) in [(0, 0), (1, 0), (2, 0), (3, 15)] {
        expect(&base, &[[0, role]], answer);
    }
}

/// Exclusions make conflicts, which refuse nothing.
#[test]
fn excluded_roles_are_held_all_the_same() {
    let mut base = open_base(2);
    base.exclusions = vec![Exclusion {
        kind: 0,
        a: 0,
        b: 1,
    }];
    expect(&base, &[[0, 0], [1, 1]], 0);
    expect(&base, &[[0, 0], [0, 1]], 14);
}
