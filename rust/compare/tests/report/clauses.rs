//! Which clauses count, and how they join.

use crate::setups::*;
use compare::builder::*;

const NEVER: &[GroupCondition] = &[(0, 0, 6)];

#[test]
fn without_a_clause_there_is_no_group() {
    expect_numbers(&base_of(&[1], vec![user(&[0]); 3], &[]), &[0]);
}

#[test]
fn one_of_the_clauses_suffices() {
    let clauses: [&[GroupCondition]; 3] = [NEVER, &[(0, 2, 2)], NEVER];
    expect_numbers(&base_of(&[1], vec![user(&[0]); 3], &clauses), &[2]);
}

#[test]
fn the_smallest_of_all_clauses_counts() {
    let sizes: [&[GroupCondition]; 3] = [&[(0, 2, 3)], &[(0, 2, 2)], &[(0, 2, 4)]];
    expect_numbers(&base_of(&[1], vec![user(&[0]); 5], &sizes), &[2]);
}

/// Three of weight 1: each clause has a condition that only three meet and one
/// that only two meet.
#[test]
fn conditions_met_in_different_clauses_do_not_join() {
    let apart: [&[GroupCondition]; 2] = [&[(0, 4, 3), (1, 4, 2)], &[(0, 4, 2), (1, 4, 3)]];
    expect_numbers(&base_of(&[1], vec![user(&[0]); 3], &apart), &[0]);
}

#[test]
fn all_conditions_of_a_clause_count() {
    let four = [(0, 2, 1), (1, 2, 2), (2, 2, 1), (3, 6, 1)];
    for (place, harder) in [(0, (0, 2, 3)), (1, (1, 2, 3)), (3, (0, 2, 3))] {
        expect_numbers(&alike(4, &four), &[2]);
        let mut conditions = four;
        conditions[place] = harder;
        expect_numbers(&alike(4, &conditions), &[3]);
    }
    expect_numbers(&alike(4, &four[..1]), &[1]);
}

#[test]
fn another_permissions_clauses_do_not_count() {
    let mut base = alike(3, &[(0, 2, 2)]);
    base.permissions.push(base.permissions[0].clone());
    base.policies.push(Policy::new(0, 1, 1, 0, NO_CONTEXT));
    expect_numbers(&base, &[2, 0]);
    base.group_clauses[0].permission = 1;
    expect_numbers(&base, &[0, 2]);
    base.group_clauses.push(GroupClause::new(0, &[(0, 2, 3)]));
    expect_numbers(&base, &[3, 2]);
}

/// The last of 64 clauses is the only one that some group passes.
#[test]
fn the_last_of_64_clauses() {
    let mut base = alike(6, NEVER);
    base.group_clauses = vec![GroupClause::new(0, NEVER); 63];
    base.group_clauses.push(GroupClause::new(0, &[(0, 4, 6)]));
    expect_numbers(&base, &[6]);
}

#[test]
fn every_operator() {
    let numbers = [4, 1, 3, 1, 3, 1];
    for (operator, k) in (0..).zip(numbers) {
        expect_numbers(&alike(6, &[(0, operator, 3)]), &[k]);
        expect_numbers(&alike(6, &[(1, operator, 3)]), &[k]);
    }
    expect_numbers(&alike(6, &[(3, 6, 0)]), &[1]);
}

/// User 0 acts in role 0, which weighs 3, user 1 in role 1, which weighs 2. So
/// one entry has the sum 3 and role 0, or 2 and role 1; two entries have the
/// sum 5 and both roles. Each clause is met but for one condition.
#[test]
fn no_clause_is_met_by_halves() {
    let both: [&[u8]; 2] = [&[0], &[1]];
    let halves: [[&[GroupCondition]; 2]; 7] = [
        [&[(0, 4, 1), (1, 4, 5)], &[(0, 4, 2), (1, 4, 3)]],
        [&[(3, 6, 2), (1, 4, 3)], &[(3, 6, 1), (1, 4, 2)]],
        [&[(0, 4, 1), (2, 4, 2)], &[(0, 4, 2), (2, 4, 1)]],
        [&[(0, 4, 1), (3, 6, 3)], &[(0, 4, 2), (3, 6, 2), (1, 5, 5)]],
        [&[(1, 4, 5), (2, 4, 1)], &[(1, 4, 3), (2, 4, 2)]],
        [&[(3, 6, 3), (2, 4, 1)], &[(3, 6, 1), (2, 4, 2), (1, 4, 3)]],
        [&[(1, 2, 3), (1, 1, 3)], &[(1, 3, 2), (1, 0, 2)]],
    ];
    let single: &[GroupCondition] = &[(0, 4, 1), (1, 4, 2), (2, 4, 1), (3, 6, 2)];
    let pair: &[GroupCondition] = &[(0, 4, 2), (1, 4, 5), (2, 4, 2), (3, 6, 3)];
    for [one, other] in halves {
        expect_one(&[3, 2], &both, &[one, other], 0);
        expect_one(&[3, 2], &both, &[other, one], 0);
        expect_one(&[3, 2], &both, &[one, pair, other], 2);
        expect_one(&[3, 2], &both, &[one, other, pair, single], 1);
    }
}

/// 64 clauses for two permissions by turns, each met by halves, and a whole one
/// for the second.
#[test]
fn many_halves_make_no_whole() {
    let halves: [&[GroupCondition]; 2] = [&[(0, 4, 1), (1, 4, 5)], &[(0, 4, 2), (1, 4, 3)]];
    let mut base = base_of(&[3, 2], users(&[&[0], &[1]]), &[]);
    base.permissions.push(base.permissions[0].clone());
    base.policies.push(Policy::new(0, 1, 3, 0, NO_CONTEXT));
    base.policies.push(Policy::new(1, 1, 2, 0, NO_CONTEXT));
    base.group_clauses = (0..64)
        .map(|i: u8| GroupClause::new(i % 2, halves[usize::from(i / 32)]))
        .collect();
    expect_with_more_roles(&base, &[0, 0]);
    for place in [1, 31, 33, 63] {
        let mut base = base.clone();
        base.group_clauses[place] = GroupClause::new(1, &[(0, 4, 2), (1, 4, 5)]);
        expect_with_more_roles(&base, &[0, 2]);
        base.group_clauses[place].permission = 0;
        expect_with_more_roles(&base, &[2, 0]);
    }
}
