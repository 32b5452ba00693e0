//! Refusal 21: the policy's number and the new weight as numbers of 4 bytes that
//! aren't cut. And the difference of the two weights.

use crate::setups::*;
use compare::builder::*;
use compare::shop::small_shop;

/// Expects this of the small shop for manager and clerk.
fn expect_policy(policy: u32, bound: u32) {
    expect(&small_shop(), policy, 5, &[MANAGER, CLERK], bound);
}

/// Expects 21 of it.
fn expect_no_policy(policy: u32) {
    expect_refused(&small_shop(), policy, 5, &[MANAGER, CLERK], 21);
}

#[test]
fn the_last_of_three_policies_is_there() {
    expect_policy(0, 2);
    expect_policy(1, 4);
    expect_policy(2, 8);
}

#[test]
fn a_policy_at_the_count_is_not_there() {
    expect_no_policy(3);
    expect_no_policy(4);
}

#[test]
fn policies_63_64_and_255_are_not_there() {
    expect_no_policy(63);
    expect_no_policy(64);
    expect_no_policy(255);
}

#[test]
fn policy_256_is_not_cut_to_0() {
    expect_no_policy(256);
}

#[test]
fn policies_257_and_258_are_not_cut_to_1_and_2() {
    expect_no_policy(257);
    expect_no_policy(258);
}

#[test]
fn no_power_of_2_is_cut_to_0() {
    for power in 2..32 {
        expect_no_policy(1 << power);
        expect_no_policy((1 << power) + 2);
    }
}

#[test]
fn the_largest_policy_number_is_not_there() {
    expect_no_policy(u32::MAX);
}

/// Eight policies of each role; the last has weight 3.
#[test]
fn the_last_of_64_policies_is_there() {
    let mut base = open_base(&[]);
    base.policies = (0..64)
        .map(|i| Policy::new(i / 8, 0, 1, 0, NO_CONTEXT))
        .collect();
    base.policies[63].weight = 3;
    expect(&base, 63, 5, &[[0, 7]], 2);
    expect(&base, 63, 5, &[[0, 0]], 0);
    for policy in [64, 65, 127, 128, 255, 256 + 63, 65_536 + 63] {
        expect_refused(&base, policy, 5, &[[0, 7]], 21);
    }
}

#[test]
fn of_no_policies_none_is_there() {
    let mut base = open_base(&CHAIN);
    base.policies.clear();
    for policy in [0, 1, 7, 255, 256, u32::MAX] {
        for weight in [0, 1, 5, 6] {
            expect_refused(&base, policy, weight, &[[0, 0]], 21);
        }
    }
}

/// Expects this of the small shop's clerk, whose policy has weight 1.
fn expect_weight(weight: u32, bound: u32) {
    expect(&small_shop(), 2, weight, &[CLERK], bound);
}

/// Expects 21 of it.
fn expect_no_weight(weight: u32) {
    expect_refused(&small_shop(), 2, weight, &[CLERK], 21);
}

#[test]
fn weight_0_is_refused() {
    expect_no_weight(0);
}

#[test]
fn weight_1_is_the_least() {
    expect_weight(1, 0);
    expect(&small_shop(), 0, 1, &[MANAGER], 2);
}

#[test]
fn weight_5_is_the_largest() {
    expect_weight(5, 4);
    expect(&small_shop(), 0, 5, &[MANAGER], 2);
}

#[test]
fn weight_6_is_refused() {
    expect_no_weight(6);
    expect_no_weight(7);
    expect_no_weight(255);
}

#[test]
fn weight_256_is_refused() {
    expect_no_weight(256);
}

#[test]
fn weights_257_to_261_are_not_cut_to_1_to_5() {
    for weight in 1..=5 {
        expect_no_weight(256 + weight);
        expect_no_weight(65_536 + weight);
        expect_no_weight((1 << 31) + weight);
    }
}

#[test]
fn of_the_powers_of_2_only_1_2_and_4_are_weights() {
    for (weight, bound) in [(1, 0), (2, 1), (4, 3)] {
        expect_weight(weight, bound);
    }
    for power in 3..32 {
        expect_no_weight(1 << power);
    }
}

#[test]
fn the_largest_weight_number_is_refused() {
    expect_no_weight(u32::MAX);
}

#[test]
fn a_wrong_policy_and_a_wrong_weight_are_21_too() {
    for (policy, weight) in [(3, 0), (3, 6), (256, 256), (u32::MAX, u32::MAX)] {
        expect_refused(&small_shop(), policy, weight, &[CLERK], 21);
    }
}

/// The base with this weight for policy 0.
fn of_weight(weight: u8) -> BaseBuilder {
    let mut base = open_base(&[]);
    base.policies[0].weight = weight;
    base
}

#[test]
fn the_weight_as_it_is_shifts_nothing() {
    for weight in 1..=5 {
        let six = in_roles(&[0; 6]);
        expect(&of_weight(weight), 0, weight.into(), &six, 0);
    }
}

#[test]
fn a_weight_may_rise_or_fall() {
    let differences = [
        [0, 1, 2, 3, 4],
        [1, 0, 1, 2, 3],
        [2, 1, 0, 1, 2],
        [3, 2, 1, 0, 1],
        [4, 3, 2, 1, 0],
    ];
    for (old, row) in (1..).zip(differences) {
        for (new, difference) in (1..).zip(row) {
            expect(&of_weight(old), 0, new, &[[0, 0]], difference);
        }
    }
}

#[test]
fn six_entries_with_a_difference_of_4_are_24() {
    let six = in_roles(&[0; 6]);
    expect(&of_weight(1), 0, 5, &six, 24);
    expect(&of_weight(5), 0, 1, &six, 24);
}

#[test]
fn every_difference_times_every_number_of_entries() {
    for difference in 0..=4 {
        for count in 1..=6 {
            let entries = in_roles(&vec![0; count]);
            let bound = difference * count as u32;
            expect(&of_weight(1), 0, 1 + difference, &entries, bound);
            expect(&of_weight(5), 0, 5 - difference, &entries, bound);
        }
    }
}
