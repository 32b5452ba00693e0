//! What the bound says of sums, which the decision shows: a group is granted if
//! its sum has to be that, and isn't if it has to be one more or less.

use crate::setups::*;
use compare::bounds::with_weight;
use compare::builder::*;
use compare::expect_decision;
use compare::questions::{at_minute, Asked};
use compare::shop::small_shop;

/// Expects this sum of the entries' weights, each above 0, for permission 0.
fn expect_sum(base: &BaseBuilder, minute: u32, entries: &[[u8; 2]], sum: u8) {
    let mut base = base.clone();
    for (asked, answer) in [(sum - 1, 17), (sum, 0), (sum + 1, 17)] {
        base.group_clauses = vec![GroupClause::new(0, &[(1, 4, asked)])];
        let question = Asked::new(0, at_minute(minute), entries);
        expect_decision(&base.bytes(), &question, answer);
    }
}

/// The base with a new weight for one policy.
fn changed(base: &BaseBuilder, policy: usize, weight: u8) -> BaseBuilder {
    let mut changed = base.clone();
    changed.policies[policy].weight = weight;
    assert_eq!(changed.bytes(), with_weight(&base.bytes(), policy, weight));
    changed
}

/// By day 5, 2, 1 and 1; with 5 for the clerk 9, 6, 5 and 5.
#[test]
fn the_small_shop_reaches_the_bound() {
    let all = [MANAGER, BUYER, CLERK, OTHER_CLERK];
    expect(&small_shop(), 2, 5, &all, 16);
    expect_sum(&small_shop(), 600, &all, 9);
    expect_sum(&changed(&small_shop(), 2, 5), 600, &all, 25);
}

/// Early the clerk's policy isn't active: manager and buyer stay at 4 and 1.
#[test]
fn where_the_policy_is_not_active_the_sum_stays() {
    let two = [MANAGER, BUYER];
    expect(&small_shop(), 2, 5, &two, 8);
    for (minute, before, after) in [(539, 5, 5), (540, 7, 15), (1020, 7, 15), (1021, 5, 5)] {
        expect_sum(&small_shop(), minute, &two, before);
        expect_sum(&changed(&small_shop(), 2, 5), minute, &two, after);
    }
}

/// The policy's weight falls from 3 to 1: the manager's from 5 to 3.
#[test]
fn a_sum_falls_by_the_bound() {
    let two = [MANAGER, CLERK];
    expect(&small_shop(), 0, 1, &two, 2);
    expect_sum(&small_shop(), 600, &two, 6);
    expect_sum(&changed(&small_shop(), 0, 1), 600, &two, 4);
}

/// Six in role 0 of eight in a chain: from 48 to 72.
#[test]
fn the_largest_bound_is_reached() {
    let base = open_base(&CHAIN);
    let six = in_roles(&[0; 6]);
    expect(&base, 7, 5, &six, 24);
    expect_sum(&base, 600, &six, 48);
    expect_sum(&changed(&base, 7, 5), 600, &six, 72);
}

/// Of type 0 the policy weighs for its own role alone: 4 of the bound's 8.
#[test]
fn a_policy_of_type_0_shifts_less_than_the_bound() {
    let mut base = open_base(&[(0, 1)]);
    base.policies[1].inheritable = 0;
    let two = in_roles(&[0, 1]);
    expect(&base, 1, 5, &two, 8);
    expect_sum(&base, 600, &two, 2);
    expect_sum(&changed(&base, 1, 5), 600, &two, 6);
}

/// The first of a role and permission counts; behind it nothing shifts.
#[test]
fn a_policy_behind_another_shifts_nothing() {
    let mut base = open_base(&[(0, 1)]);
    base.policies.push(Policy::new(1, 0, 2, 1, NO_CONTEXT));
    let two = in_roles(&[0, 1]);
    expect(&base, 8, 5, &two, 6);
    expect_sum(&base, 600, &two, 3);
    expect_sum(&changed(&base, 8, 5), 600, &two, 3);
}

/// Role 0 inherits from role 3 once, by two chains.
#[test]
fn two_chains_reach_the_bound_once() {
    let base = open_base(&DIAMOND);
    expect(&base, 3, 4, &[[0, 0]], 3);
    expect_sum(&base, 600, &[[0, 0]], 4);
    expect_sum(&changed(&base, 3, 4), 600, &[[0, 0]], 7);
}

/// The manager as a clerk gains what a clerk gains.
#[test]
fn who_acts_down_shifts_by_the_role_acted_in() {
    let as_clerk = [[0, 2], CLERK];
    expect(&small_shop(), 2, 4, &as_clerk, 6);
    expect(&small_shop(), 0, 5, &as_clerk, 0);
    expect_sum(&small_shop(), 600, &as_clerk, 2);
    expect_sum(&changed(&small_shop(), 2, 4), 600, &as_clerk, 8);
    expect_sum(&changed(&small_shop(), 0, 5), 600, &as_clerk, 2);
}
