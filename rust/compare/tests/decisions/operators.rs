//! Operators 0 to 5 of group conditions, below, at and above their value.

use crate::setups::*;
use compare::builder::*;

/// The answers for operators 0 to 5.
const BELOW: [u8; 6] = [17, 0, 17, 0, 17, 0];
const EQUAL: [u8; 6] = [17, 17, 0, 0, 0, 17];
const ABOVE: [u8; 6] = [0, 17, 0, 17, 17, 0];

/// Expects of operators 0 to 5 that each has its answer for a group of the
/// small shop at minute 600, by one condition.
fn expect_operators(attribute: u8, value: u8, group: &[[u8; 2]], answers: [u8; 6]) {
    for (operator, answer) in (0..).zip(answers) {
        let condition = (attribute, operator, value);
        expect(&shop_with_clauses(&[&[condition]]), group, answer);
    }
}

/// Three entries with a sum of 7, in two roles.
const THREE: [[u8; 2]; 3] = [MANAGER, CLERK, OTHER_CLERK];

#[test]
fn operators_compare_the_number_of_entries() {
    expect_operators(0, 4, &THREE, BELOW);
    expect_operators(0, 3, &THREE, EQUAL);
    expect_operators(0, 2, &THREE, ABOVE);
}

#[test]
fn operators_compare_the_sum() {
    expect_operators(1, 8, &THREE, BELOW);
    expect_operators(1, 7, &THREE, EQUAL);
    expect_operators(1, 6, &THREE, ABOVE);
}

#[test]
fn operators_compare_the_number_of_different_roles() {
    expect_operators(2, 3, &THREE, BELOW);
    expect_operators(2, 2, &THREE, EQUAL);
    expect_operators(2, 1, &THREE, ABOVE);
}

#[test]
fn every_attribute_is_above_0_and_below_255() {
    for attribute in 0..3 {
        expect_operators(attribute, 0, &THREE, ABOVE);
        expect_operators(attribute, 255, &THREE, BELOW);
    }
}

#[test]
fn operators_compare_values_of_128_and_more() {
    for attribute in 0..3 {
        expect_operators(attribute, 127, &THREE, BELOW);
        expect_operators(attribute, 128, &THREE, BELOW);
        expect_operators(attribute, 254, &THREE, BELOW);
    }
}

/// One entry, one role, and the clerk's weight of 1.
#[test]
fn operators_compare_the_smallest_group() {
    for attribute in 0..3 {
        expect_operators(attribute, 0, &[CLERK], ABOVE);
        expect_operators(attribute, 1, &[CLERK], EQUAL);
        expect_operators(attribute, 2, &[CLERK], BELOW);
    }
}

/// Six users in six roles of weight 1.
#[test]
fn operators_compare_the_largest_group() {
    let group = [0, 1, 2, 3, 4, 5].map(|user| [user, user]);
    for attribute in 0..3 {
        for (value, answers) in [(5, ABOVE), (6, EQUAL), (7, BELOW)] {
            for (operator, answer) in (0..).zip(answers) {
                let mut base = open_base(8);
                base.group_clauses = vec![GroupClause::new(0, &[(attribute, operator, value)])];
                expect(&base, &group, answer);
            }
        }
    }
}

/// Sums of 2, 3, 5 and 6.
#[test]
fn two_conditions_bound_the_sum_from_both_sides() {
    let base = shop_with_clauses(&[&[(1, 0, 2), (1, 1, 6)]]);
    expect(&base, &[BUYER], 17);
    expect(&base, &[BUYER, CLERK], 0);
    expect(&base, &[MANAGER], 0);
    expect(&base, &[MANAGER, CLERK], 17);
}
