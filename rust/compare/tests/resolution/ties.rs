//! Where no rule tells policies apart, table order decides.

use crate::setups::*;
use compare::lists::LEGAL;

#[test]
fn of_equal_policies_by_every_rule_the_weight_is_theirs() {
    for list in LEGAL {
        expect_own(&[issued(7, 7, 3), issued(7, 7, 3)], list, 3);
    }
}

#[test]
fn of_equal_days_the_first_in_the_table_counts() {
    expect_own(&[issued(7, 1, 5), issued(7, 9, 1)], &[0], 5);
    expect_own(&[issued(7, 9, 1), issued(7, 1, 5)], &[0], 1);
}

#[test]
fn of_equal_ranks_the_first_in_the_table_counts() {
    expect_own(&[issued(1, 7, 5), issued(9, 7, 1)], &[1], 5);
    expect_own(&[issued(9, 7, 1), issued(1, 7, 5)], &[1], 1);
}

#[test]
fn of_equal_days_and_ranks_the_first_in_the_table_counts() {
    for list in [[0, 1], [1, 0]] {
        expect_own(&[issued(7, 7, 5), issued(7, 7, 1)], &list, 5);
        expect_own(&[issued(7, 7, 1), issued(7, 7, 5)], &list, 1);
    }
}

/// Not the first of all, and not the last.
#[test]
fn of_several_that_nothing_goes_before_the_first_counts() {
    let policies = [
        issued(6, 9, 1),
        issued(7, 1, 4),
        issued(7, 1, 3),
        issued(6, 9, 2),
        issued(7, 1, 5),
    ];
    expect_own(&policies, &[0], 4);
    expect_own(&policies, &[0, 1], 4);
    expect_own(&policies, &[1], 1);
    expect_own(&policies, &[0, 1, 2], 3);
}

/// Each goes before the one in front of it, but for the last two, which are
/// equal by the rules.
#[test]
fn a_later_one_replaces_an_earlier_one_only_if_it_goes_before() {
    let policies = [
        issued(1, 0, 1),
        issued(2, 0, 2),
        issued(3, 0, 3),
        issued(4, 0, 4),
        issued(4, 0, 5),
    ];
    for (count, weight) in [(1, 1), (2, 2), (3, 3), (4, 4), (5, 4)] {
        expect_own(&policies[..count], &[0], weight);
    }
}

#[test]
fn of_sixty_four_equal_ones_the_first_counts() {
    let mut policies = vec![issued(7, 7, 5); 64];
    policies[0].weight = 4;
    expect_own(&policies, &[0, 1], 4);
    expect_own(&policies, &[1, 0], 4);
    policies[63].weight = 3;
    expect_own(&policies, &[1], 4);
    expect_own(&policies, &[1, 2], 3);
}
