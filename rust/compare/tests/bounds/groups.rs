//! Refusals 12 to 15, as the decision gives them.

use crate::setups::*;
use compare::bounds::{expect_bound, Changed};
use compare::builder::*;
use compare::shop::small_shop;

/// The bytes of eight users in role 0, and then the same again.
fn of_length(length: usize) -> Changed {
    let entries = (0..8).cycle().flat_map(|user| [user, 0]);
    Changed {
        policy: 0,
        weight: 3,
        group: entries.take(length).collect(),
    }
}

#[test]
fn even_lengths_from_2_to_12_have_a_bound() {
    for length in [2, 4, 6, 8, 10, 12] {
        let answer = (0, length as u32);
        expect_bound(&open_base(&[]).bytes(), &of_length(length), answer);
    }
}

#[test]
fn odd_lengths_are_12() {
    for length in [1, 3, 5, 7, 9, 11, 13, 15, 255, 257] {
        expect_bound(&open_base(&[]).bytes(), &of_length(length), (12, 0));
    }
}

#[test]
fn length_0_and_lengths_above_12_are_12() {
    for length in [0, 14, 16, 24, 256, 258, 268, 512, 65_536, 65_538, 65_548] {
        expect_bound(&open_base(&[]).bytes(), &of_length(length), (12, 0));
    }
}

#[test]
fn a_user_who_is_not_there_is_13() {
    for user in [8, 9, 23, 24, 127, 128, 255] {
        expect_refused(&open_base(&[]), 0, 3, &[[user, 0]], 13);
        expect_refused(&open_base(&[]), 0, 3, &[[0, 0], [user, 0]], 13);
    }
}

#[test]
fn a_role_that_is_not_there_is_13() {
    for role in [3, 4, 7, 8, 255] {
        expect_refused(&small_shop(), 0, 3, &[[0, role]], 13);
    }
    for role in [8, 9, 255] {
        expect_refused(&open_base(&CHAIN), 0, 3, &[[0, role]], 13);
    }
}

#[test]
fn without_users_nobody_is_there() {
    let mut base = open_base(&[]);
    base.users.clear();
    expect_refused(&base, 0, 3, &[[0, 0]], 13);
}

#[test]
fn a_user_twice_is_14_in_whatever_role() {
    expect_refused(&open_base(&[]), 0, 3, &[[1, 0], [1, 0]], 14);
    expect_refused(&open_base(&[]), 0, 3, &[[1, 0], [2, 0], [1, 5]], 14);
    expect_refused(&small_shop(), 0, 3, &[MANAGER, [0, 1]], 14);
}

#[test]
fn a_role_that_the_user_may_not_act_in_is_15() {
    expect_refused(&small_shop(), 0, 3, &[[1, 0]], 15);
    expect_refused(&small_shop(), 0, 3, &[[2, 0]], 15);
    expect_refused(&small_shop(), 0, 3, &[[2, 1]], 15);
    expect_refused(&small_shop(), 0, 3, &[MANAGER, [3, 1]], 15);
}

#[test]
fn a_user_without_roles_is_15() {
    let mut base = open_base(&CHAIN);
    base.users[5] = User::always(1);
    for role in 0..8 {
        expect_refused(&base, 0, 3, &[[5, role]], 15);
    }
}

/// User r holds role r alone: each acts down the chain and not up.
#[test]
fn a_user_acts_in_roles_held_and_below() {
    let mut base = open_base(&CHAIN);
    base.users = CODES.map(User::always).to_vec();
    for user in 0..8 {
        for role in 0..8 {
            if user <= role {
                expect(&base, 7, 3, &[[user, role]], 2);
            } else {
                expect_refused(&base, 7, 3, &[[user, role]], 15);
            }
        }
    }
}

/// Who acts down by the records acts in the role held alone without them.
#[test]
fn without_records_nobody_acts_down() {
    let mut apart = small_shop();
    apart.hierarchy.clear();
    expect(&apart, 2, 5, &[MANAGER], 0);
    expect(&apart, 2, 5, &[CLERK], 4);
    for entry in [[0, 1], [0, 2], [1, 2]] {
        expect_refused(&apart, 2, 5, &[entry], 15);
    }
    expect(&small_shop(), 2, 5, &[[0, 2]], 4);
    expect(&small_shop(), 2, 5, &[[1, 2]], 4);
}

/// Six who hold role 0 act in six of its juniors.
#[test]
fn six_act_down() {
    let mut base = open_base(&CHAIN);
    base.users = vec![User::always(3); 6];
    let six = in_roles(&[2, 3, 4, 5, 6, 7]);
    for (policy, bound) in [(1, 0), (2, 4), (3, 8), (6, 20), (7, 24)] {
        expect(&base, policy, 5, &six, bound);
    }
}

#[test]
fn a_fault_is_found_at_every_place() {
    let mut base = open_base(&CHAIN);
    base.users[6] = User::always(19);
    for place in 0..6 {
        let mut group = in_roles(&[7; 6]);
        group[place] = [6, 7];
        expect(&base, 7, 5, &group, 24);
        for (entry, refusal) in [([9, 7], 13), ([7, 8], 13), ([6, 5], 15)] {
            group[place] = entry;
            expect_refused(&base, 7, 5, &group, refusal);
        }
        group[place] = group[(place + 1) % 6];
        expect_refused(&base, 7, 5, &group, 14);
    }
}
