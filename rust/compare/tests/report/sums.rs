//! Sums that a clause caps or names: the heaviest users, and each user's
//! heaviest role, are often no solution.

use crate::setups::*;
use compare::builder::*;
use compare::shop::small_shop;

/// Expects this number for the small shop with one clause, by day: the manager
/// weighs 5, as buyer 2 and as clerk 1, the buyer 2 and as clerk 1, the clerks 1.
fn shop(conditions: &[GroupCondition], k: u8) {
    let mut base = small_shop();
    base.group_clauses = vec![GroupClause::new(0, conditions)];
    expect_numbers(&base, &[k]);
}

#[test]
fn a_sum_that_is_named() {
    let sums = [1, 2, 3, 4, 5, 6, 7, 8, 9, 10];
    let numbers = [1, 1, 2, 2, 1, 2, 2, 3, 4, 0];
    for (sum, k) in sums.into_iter().zip(numbers) {
        shop(&[(1, 4, sum)], k);
    }
    shop(&[(1, 4, 0)], 0);
}

#[test]
fn a_sum_that_is_capped() {
    shop(&[(1, 1, 1)], 0);
    shop(&[(1, 1, 2)], 1);
    shop(&[(0, 2, 2), (1, 1, 3)], 2);
    shop(&[(0, 2, 2), (1, 1, 2)], 0);
    shop(&[(0, 2, 3), (1, 1, 4)], 3);
    shop(&[(0, 2, 3), (1, 1, 3)], 0);
    shop(&[(0, 2, 3), (1, 3, 3)], 3);
    shop(&[(0, 2, 3), (1, 3, 2)], 0);
    shop(&[(0, 2, 4), (1, 3, 4)], 4);
    shop(&[(0, 2, 4), (1, 3, 3)], 0);
}

/// All four have the sum 4, 5, 6, 8 or 9.
#[test]
fn a_sum_that_is_ruled_out() {
    shop(&[(1, 5, 5), (1, 2, 5)], 2);
    shop(&[(0, 2, 4), (1, 2, 6), (1, 5, 8), (1, 5, 9)], 4);
    shop(&[(0, 2, 4), (1, 0, 6), (1, 5, 8), (1, 5, 9)], 0);
    shop(&[(0, 2, 4), (1, 4, 7)], 0);
    shop(&[(1, 5, 1), (1, 5, 2), (1, 5, 5)], 2);
}

#[test]
fn a_sum_between_two() {
    shop(&[(1, 0, 2), (1, 1, 5)], 2);
    shop(&[(1, 0, 3), (1, 1, 5)], 2);
    shop(&[(1, 0, 7), (1, 1, 9)], 3);
    shop(&[(1, 0, 9), (1, 1, 20)], 0);
}

/// Each may act in a role of weight 5 and in one of weight 1.
fn heavy_or_light(count: usize, conditions: &[GroupCondition]) -> BaseBuilder {
    base_of(&[5, 1], vec![user(&[0, 1]); count], &[conditions])
}

#[test]
fn the_heaviest_role_is_no_solution() {
    expect_only_group(&heavy_or_light(1, &[(1, 1, 5)]), &[[0, 1]]);
    expect_only_group(&heavy_or_light(1, &[(1, 4, 1)]), &[[0, 1]]);
    expect_only_group(&heavy_or_light(1, &[(1, 5, 5)]), &[[0, 1]]);
}

#[test]
fn some_act_in_the_lighter_role() {
    let sums = [2, 3, 4, 5, 6, 7, 9, 10, 11, 12, 16, 18, 26, 30];
    let numbers = [2, 3, 4, 1, 2, 3, 5, 2, 3, 4, 4, 6, 6, 6];
    for (sum, k) in sums.into_iter().zip(numbers) {
        expect_numbers(&heavy_or_light(6, &[(1, 4, sum)]), &[k]);
    }
    for sum in [13, 19, 23, 24, 27, 31] {
        let conditions = [(0, 3, 3), (1, 4, sum)];
        expect_numbers(&heavy_or_light(6, &conditions), &[0]);
    }
}

/// 7 is 5 + 1 + 1; the heaviest have 5, 10 and 15.
#[test]
fn the_heaviest_users_are_no_solution() {
    let five = users(&[&[0], &[0], &[0], &[1], &[1]]);
    let base = base_of(&[5, 1], five.clone(), &[&[(1, 4, 7)]]);
    expect_numbers(&base, &[3]);
    let base = base_of(&[5, 1], five, &[&[(1, 1, 8), (0, 2, 3)]]);
    expect_numbers(&base, &[3]);
}

/// A user with the heavier role alone comes first, one with both second.
#[test]
fn the_first_user_keeps_the_heavier_role() {
    let two = users(&[&[0], &[0, 1]]);
    let base = base_of(&[5, 1], two, &[&[(1, 4, 6)]]);
    expect_only_group(&base, &[[0, 0], [1, 1]]);
    let two = users(&[&[0, 1], &[0]]);
    let base = base_of(&[5, 1], two, &[&[(1, 4, 6)]]);
    expect_only_group(&base, &[[0, 1], [1, 0]]);
}

/// Two clauses, each with a cap: the one that fewer meet counts.
#[test]
fn the_smaller_number_of_two_clauses() {
    let clauses: [&[GroupCondition]; 2] = [&[(1, 4, 4)], &[(1, 4, 6)]];
    let base = base_of(&[5, 1], vec![user(&[0, 1]); 6], &clauses);
    expect_numbers(&base, &[2]);
    let mut base = base;
    base.group_clauses.reverse();
    expect_numbers(&base, &[2]);
}

/// Role 0 weighs 40, role 1 35 and so on, down to 5.
fn chain(count: usize, conditions: &[GroupCondition]) -> BaseBuilder {
    let inherited = |role| Policy::new(role, 0, 5, 1, NO_CONTEXT);
    BaseBuilder {
        hierarchy: (0..7)
            .map(|senior| Edge {
                senior,
                junior: senior + 1,
            })
            .collect(),
        users: vec![user(&[0, 1, 7]); count],
        group_clauses: vec![GroupClause::new(0, conditions)],
        policies: (0..8).map(inherited).collect(),
        ..BaseBuilder::new(8).with_permissions(1)
    }
}

#[test]
fn sums_reach_240() {
    for (sum, k) in [(200, 5), (205, 6), (235, 6), (240, 6), (241, 0), (255, 0)] {
        expect_numbers(&chain(7, &[(1, 2, sum)]), &[k]);
    }
    expect_numbers(&chain(6, &[(1, 4, 240)]), &[6]);
    expect_numbers(&chain(5, &[(1, 4, 240)]), &[0]);
    expect_numbers(&chain(6, &[(1, 0, 240)]), &[0]);
}

/// 235 is five times 40 and 35; 195 is 40, 40, 40, 40 and 35; 30 is role 2's
/// weight, and six times 5.
#[test]
fn high_sums_that_are_named() {
    for (sum, k) in [(235, 6), (195, 5), (165, 5), (30, 1), (45, 2), (44, 0)] {
        expect_numbers(&chain(7, &[(1, 4, sum)]), &[k]);
    }
    expect_numbers(&chain(7, &[(1, 4, 30), (0, 4, 6)]), &[6]);
    expect_numbers(&chain(7, &[(1, 4, 25), (0, 4, 6)]), &[0]);
}
