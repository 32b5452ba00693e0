//! Which entries count: those whose role is the policy's or senior to it.

use crate::setups::*;
use compare::builder::*;
use compare::shop::small_shop;

#[test]
fn an_entry_in_the_policys_role_counts() {
    expect(&open_base(&[]), 3, 5, &[[0, 3]], 4);
    expect(&open_base(&CHAIN), 3, 5, &[[0, 3]], 4);
}

#[test]
fn an_entry_in_a_senior_role_counts() {
    expect(&open_base(&[(0, 3)]), 3, 5, &[[0, 0]], 4);
    expect(&open_base(&[(2, 3)]), 3, 5, &[[0, 2]], 4);
}

#[test]
fn entries_in_the_policys_role_and_in_a_senior_count() {
    let base = open_base(&[(0, 1)]);
    expect(&base, 1, 5, &in_roles(&[0, 1]), 8);
    expect(&base, 1, 5, &in_roles(&[1, 1, 0]), 12);
    expect(&base, 1, 4, &in_roles(&[0, 0, 0, 1, 1, 1]), 18);
    expect(&base, 1, 5, &in_roles(&[0, 1, 2, 3]), 8);
}

#[test]
fn an_entry_in_a_junior_role_does_not_count() {
    let base = open_base(&[(0, 1), (1, 2)]);
    expect(&base, 0, 5, &in_roles(&[1, 2]), 0);
    expect(&base, 1, 5, &in_roles(&[2, 2]), 0);
    expect(&base, 1, 5, &in_roles(&[0, 1, 2]), 8);
}

#[test]
fn without_records_the_policys_role_counts_alone() {
    for role in 0..8 {
        expect_reached(&open_base(&[]), role, &[role as u8]);
    }
}

#[test]
fn up_a_chain_and_not_down() {
    for role in 0..8 {
        let seniors: Vec<u8> = (0..=role as u8).collect();
        expect_reached(&open_base(&CHAIN), role, &seniors);
    }
}

#[test]
fn a_chain_of_seven_records_counts() {
    expect(&open_base(&CHAIN), 7, 5, &[[0, 0]], 4);
    expect(&open_base(&CHAIN[1..]), 7, 5, &[[0, 0]], 0);
    expect(&open_base(&CHAIN[..6]), 7, 5, &[[0, 0]], 0);
}

#[test]
fn every_record_of_the_chain_counts() {
    for missing in 0..7 {
        let mut chain = CHAIN.to_vec();
        chain.remove(missing);
        let seniors: Vec<u8> = (missing as u8 + 1..8).collect();
        expect_reached(&open_base(&chain), 7, &seniors);
    }
}

#[test]
fn the_records_may_stand_in_any_order() {
    let mut chain = CHAIN;
    chain.reverse();
    expect(&open_base(&chain), 7, 5, &[[0, 0]], 4);
    chain.swap(0, 3);
    chain.swap(2, 6);
    expect(&open_base(&chain), 7, 5, &[[0, 0]], 4);
    expect(&open_base(&chain), 0, 5, &[[0, 7]], 0);
}

#[test]
fn a_role_beside_the_policys_does_not_count() {
    let fork = open_base(&[(0, 1), (0, 2)]);
    expect_reached(&fork, 1, &[0, 1]);
    expect_reached(&fork, 2, &[0, 2]);
    let join = open_base(&[(0, 2), (1, 2)]);
    expect_reached(&join, 2, &[0, 1, 2]);
    expect_reached(&join, 0, &[0]);
}

/// Role 0 is senior to role 3 by two chains.
#[test]
fn a_role_senior_by_two_chains_counts_once() {
    let base = open_base(&DIAMOND);
    expect(&base, 3, 5, &[[0, 0]], 4);
    expect(&base, 3, 5, &in_roles(&[0, 1, 2, 3]), 16);
    expect(&base, 3, 5, &in_roles(&[0; 6]), 24);
    expect_reached(&base, 3, &[0, 1, 2, 3]);
    expect_reached(&base, 1, &[0, 1]);
}

#[test]
fn a_record_beside_a_chain_counts_once() {
    let base = open_base(&[(0, 1), (1, 2), (0, 2)]);
    expect(&base, 2, 5, &[[0, 0]], 4);
    expect(&base, 2, 5, &in_roles(&[0, 1, 2]), 12);
}

#[test]
fn repeated_records_count_once() {
    expect(&open_base(&[(0, 1); 2]), 1, 5, &[[0, 0]], 4);
    expect(&open_base(&[(0, 1); 28]), 1, 5, &in_roles(&[0, 1]), 8);
}

/// 0 over 1 and 2, both over 3; 3 over 4 and 5, both over 6.
#[test]
fn four_chains_through_two_diamonds_count_once() {
    let lower = [(3, 4), (3, 5), (4, 6), (5, 6)];
    let base = open_base(&[DIAMOND, lower].concat());
    expect(&base, 6, 5, &[[0, 0]], 4);
    expect_reached(&base, 6, &[0, 1, 2, 3, 4, 5, 6]);
}

#[test]
fn all_28_pairs_of_eight_roles_count_each_entry_once() {
    let pairs: Vec<(u8, u8)> = (0..8)
        .flat_map(|senior| (senior + 1..8).map(move |junior| (senior, junior)))
        .collect();
    let base = open_base(&pairs);
    expect(&base, 7, 5, &in_roles(&[0, 1, 2, 3, 4, 7]), 24);
    for role in 0..8 {
        let seniors: Vec<u8> = (0..=role as u8).collect();
        expect_reached(&base, role, &seniors);
    }
}

#[test]
fn each_of_several_users_in_a_role_counts() {
    for count in 1..=6 {
        let entries = in_roles(&vec![0; count]);
        expect(&open_base(&[(0, 1)]), 1, 3, &entries, 2 * count as u32);
    }
}

#[test]
fn entries_may_stand_in_any_order() {
    let base = open_base(&CHAIN);
    for entries in [
        [[0, 0], [1, 4], [2, 7]],
        [[2, 7], [1, 4], [0, 0]],
        [[7, 4], [3, 7], [5, 0]],
    ] {
        expect(&base, 4, 3, &entries, 4);
    }
}

/// A user holds a role senior to the policy's and acts in one that isn't.
#[test]
fn the_role_acted_in_counts_and_not_the_one_held() {
    expect(&small_shop(), 1, 5, &[MANAGER], 4);
    expect(&small_shop(), 1, 5, &[[0, 1]], 4);
    expect(&small_shop(), 1, 5, &[[0, 2]], 0);
    expect(&small_shop(), 0, 5, &[[0, 1]], 0);
    expect(
        &small_shop(),
        2,
        5,
        &[[0, 2], [1, 2], CLERK, OTHER_CLERK],
        16,
    );
}

/// User 0 holds role 0 alone and acts in each role below it.
#[test]
fn a_user_acts_down_a_chain() {
    let mut base = open_base(&CHAIN);
    base.users[0] = User::always(3);
    for role in 0..8 {
        let reached: Vec<u8> = (0..=role).collect();
        expect_reached(&base, role.into(), &reached);
    }
}

/// The user holds two roles, one senior to the policy's.
#[test]
fn a_user_of_several_roles_counts_by_the_role_acted_in() {
    let mut base = open_base(&[(0, 1), (2, 3)]);
    base.users[0] = User::always(3 * 7);
    expect(&base, 1, 5, &[[0, 0]], 4);
    expect(&base, 1, 5, &[[0, 1]], 4);
    expect(&base, 1, 5, &[[0, 2]], 0);
    expect(&base, 1, 5, &[[0, 3]], 0);
}
