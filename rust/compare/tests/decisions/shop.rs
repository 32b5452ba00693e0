//! The marked cases of the paper's example. Weights are seen through
//! decisions.

use crate::setups::*;
use compare::shop::small_shop;

#[test]
fn marked_case_1_by_day_the_weights_are_5_2_1() {
    expect_weights(600, &small_shop(), &[5, 2, 1]);
}

#[test]
fn marked_case_2_early_the_weights_are_4_1_0() {
    expect_weights(480, &small_shop(), &[4, 1, 0]);
}

#[test]
fn marked_case_3_at_540_the_clerk_has_weight_1() {
    expect_weights(540, &small_shop(), &[5, 2, 1]);
    expect_at(540, &small_shop(), &[CLERK], 17);
    expect_at(540, &small_shop(), &[MANAGER, CLERK], 0);
}

#[test]
fn marked_case_3_at_1020_the_clerk_has_weight_1() {
    expect_weights(1020, &small_shop(), &[5, 2, 1]);
    expect_at(1020, &small_shop(), &[CLERK], 17);
    expect_at(1020, &small_shop(), &[MANAGER, CLERK], 0);
}

#[test]
fn marked_case_3_at_539_the_clerk_has_no_weight() {
    expect_weights(539, &small_shop(), &[4, 1, 0]);
    expect_at(539, &small_shop(), &[CLERK], 16);
    expect_at(539, &small_shop(), &[MANAGER, CLERK], 16);
}

#[test]
fn marked_case_3_at_1021_the_clerk_has_no_weight() {
    expect_weights(1021, &small_shop(), &[4, 1, 0]);
    expect_at(1021, &small_shop(), &[CLERK], 16);
    expect_at(1021, &small_shop(), &[MANAGER, CLERK], 16);
}

#[test]
fn marked_case_4_the_manager_alone_is_one_entry() {
    expect_at(600, &small_shop(), &[MANAGER], 17);
}

#[test]
fn marked_case_5_manager_and_clerk_are_granted() {
    expect_at(600, &small_shop(), &[MANAGER, CLERK], 0);
    expect_at(600, &small_shop(), &[OTHER_CLERK, MANAGER], 0);
}

#[test]
fn marked_case_6_buyer_and_both_clerks_weigh_4() {
    expect_at(600, &small_shop(), &[BUYER, CLERK, OTHER_CLERK], 17);
    let at_least_4 = shop_with_clauses(&[&[(0, 2, 2), (1, 2, 4)]]);
    expect_at(600, &at_least_4, &[BUYER, CLERK, OTHER_CLERK], 0);
}

#[test]
fn marked_case_7_early_manager_and_clerk_are_refused_by_weight() {
    expect_at(480, &small_shop(), &[MANAGER, CLERK], 16);
}

#[test]
fn marked_case_8_user_0_twice() {
    expect_at(600, &small_shop(), &[MANAGER, MANAGER], 14);
}

#[test]
fn marked_case_8_user_2_as_buyer() {
    expect_at(600, &small_shop(), &[[2, 1]], 15);
    expect_at(600, &small_shop(), &[MANAGER, [2, 1]], 15);
}

/// The group that the program prints: weights 4 and 1.
#[test]
fn early_manager_and_buyer_are_granted() {
    expect_at(480, &small_shop(), &[MANAGER, BUYER], 0);
}

#[test]
fn everybody_together_is_granted() {
    let everybody = [MANAGER, BUYER, CLERK, OTHER_CLERK];
    expect_at(600, &small_shop(), &everybody, 0);
}
