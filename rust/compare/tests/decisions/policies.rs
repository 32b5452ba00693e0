//! Refusal 16, and which policy gives a role its weight. Context 0 holds at
//! minute 600 and not at minute 480; context 1 has no clause.

use crate::setups::*;
use compare::builder::*;

/// A base of three roles, 0 over 1 over 2, with these policies: role, weight,
/// type, context.
fn with_policies(policies: &[(u8, u8, u8, u8)]) -> BaseBuilder {
    let policies = policies.iter();
    let mut base = BaseBuilder::new(3).with_permissions(2);
    base.hierarchy = edges(&[(0, 1), (1, 2)]);
    base.users = vec![all_roles(3); 2];
    base.group_clauses = vec![any_group_passes()];
    base.context_clauses = vec![ContextClause::new(0, &[(0, 2, 540), (0, 3, 1020)])];
    base.policies = policies
        .map(|&(role, weight, kind, context)| Policy::new(role, 0, weight, kind, context))
        .collect();
    base
}

/// Expects these weights of the three roles at minutes 600 and 480.
fn expect_both(policies: &[(u8, u8, u8, u8)], by_day: [u8; 3], early: [u8; 3]) {
    expect_weights(600, &with_policies(policies), &by_day);
    expect_weights(480, &with_policies(policies), &early);
}

#[test]
fn a_role_without_a_policy_has_no_weight() {
    let base = with_policies(&[(1, 5, 0, NO_CONTEXT)]);
    expect(&base, &[[0, 0]], 16);
    expect(&base, &[[0, 1]], 0);
    expect(&base, &[[0, 2]], 16);
}

#[test]
fn without_policies_no_role_has_weight() {
    for role in 0..3 {
        expect(&with_policies(&[]), &[[0, role]], 16);
    }
}

#[test]
fn one_weightless_entry_refuses_the_group() {
    let base = with_policies(&[(1, 5, 0, NO_CONTEXT)]);
    expect(&base, &[[0, 1], [1, 1]], 0);
    expect(&base, &[[0, 1], [1, 2]], 16);
    expect(&base, &[[0, 2], [1, 1]], 16);
}

#[test]
fn another_permissions_policy_gives_no_weight() {
    let mut base = with_policies(&[(0, 5, 1, NO_CONTEXT)]);
    base.policies[0].permission = 1;
    expect(&base, &[[0, 0]], 16);
}

#[test]
fn another_permissions_policy_is_not_inherited() {
    let mut base = with_policies(&[(2, 5, 1, NO_CONTEXT), (2, 1, 1, NO_CONTEXT)]);
    base.policies[0].permission = 1;
    expect_weights(600, &base, &[1, 1, 1]);
}

#[test]
fn an_inactive_policy_gives_no_weight() {
    let base = with_policies(&[(0, 5, 0, 0)]);
    expect_at(480, &base, &[[0, 0]], 16);
    expect_at(600, &base, &[[0, 0]], 0);
}

#[test]
fn an_inactive_policy_is_not_inherited() {
    let base = with_policies(&[(2, 5, 1, 0)]);
    for role in 0..3 {
        expect_at(480, &base, &[[0, role]], 16);
        expect_at(600, &base, &[[0, role]], 0);
    }
}

#[test]
fn a_policy_under_255_gives_weight_at_every_minute() {
    let base = with_policies(&[(0, 5, 0, 255)]);
    for minute in [0, 480, 539, 540, 600, 1020, 1021, 1439] {
        expect_at(minute, &base, &[[0, 0]], 0);
        expect_at(minute, &base, &[[0, 1]], 16);
    }
}

#[test]
fn a_senior_with_inherited_weight_alone_is_granted() {
    let base = with_policies(&[(2, 1, 1, NO_CONTEXT)]);
    expect(&base, &[[0, 0]], 0);
    expect(&base, &[[0, 1]], 0);
}

#[test]
fn a_senior_over_type_0_alone_has_no_weight() {
    let base = with_policies(&[(2, 1, 0, NO_CONTEXT)]);
    expect(&base, &[[0, 0]], 16);
    expect(&base, &[[0, 1]], 16);
    expect(&base, &[[0, 2]], 0);
}

#[test]
fn own_is_the_first_policy_and_not_the_heaviest_or_the_last() {
    expect_both(&[(2, 2, 0, 255), (2, 5, 0, 255)], [0, 0, 2], [0, 0, 2]);
    expect_both(&[(2, 5, 0, 255), (2, 2, 0, 255)], [0, 0, 5], [0, 0, 5]);
}

#[test]
fn own_is_not_a_sum_over_policies() {
    expect_both(&[(2, 1, 0, 255); 3], [0, 0, 1], [0, 0, 1]);
    expect_both(&[(2, 1, 1, 255); 3], [1, 1, 1], [1, 1, 1]);
}

#[test]
fn own_takes_either_type() {
    let type_1_first = [(0, 4, 1, 255), (0, 3, 0, 255)];
    let type_0_first = [(0, 3, 0, 255), (0, 4, 1, 255)];
    expect_both(&type_1_first, [4, 0, 0], [4, 0, 0]);
    expect_both(&type_0_first, [3, 0, 0], [3, 0, 0]);
}

#[test]
fn own_is_the_first_active_policy_of_either_type() {
    let policies = [(0, 5, 1, 0), (0, 2, 0, 255), (0, 4, 1, 255)];
    expect_both(&policies, [5, 0, 0], [2, 0, 0]);
    let policies = [(0, 5, 0, 0), (0, 4, 1, 255), (0, 2, 0, 255)];
    expect_both(&policies, [5, 0, 0], [4, 0, 0]);
}

/// Role 1 has own 2; role 0 inherits the first active policy of type 1.
#[test]
fn inh_is_the_first_active_policy_of_type_1_behind_an_active_type_0() {
    let policies = [(1, 2, 0, 255), (1, 5, 1, 0), (1, 3, 1, 255), (1, 4, 1, 255)];
    expect_both(&policies, [5, 2, 0], [3, 2, 0]);
}

#[test]
fn inh_is_not_own_where_type_0_comes_first() {
    expect_both(&[(1, 1, 0, 255), (1, 5, 1, 255)], [5, 1, 0], [5, 1, 0]);
    expect_both(&[(1, 5, 1, 255), (1, 1, 0, 255)], [5, 5, 0], [5, 5, 0]);
}

#[test]
fn inh_is_0_where_type_1_is_inactive() {
    expect_both(&[(1, 1, 0, 255), (1, 5, 1, 0)], [5, 1, 0], [0, 1, 0]);
}

#[test]
fn the_first_policy_is_sought_for_each_role_by_itself() {
    let policies = [
        (2, 1, 1, 255),
        (1, 2, 1, 255),
        (0, 3, 1, 255),
        (0, 5, 1, 255),
        (1, 5, 1, 255),
        (2, 5, 1, 255),
    ];
    expect_both(&policies, [6, 3, 1], [6, 3, 1]);
}

#[test]
fn the_first_policy_is_sought_for_each_permission_by_itself() {
    let mut base = with_policies(&[(0, 5, 1, 255), (0, 2, 1, 255), (0, 4, 1, 255)]);
    base.policies[0].permission = 1;
    expect_weights(600, &base, &[2, 0, 0]);
}

#[test]
fn a_context_number_without_a_clause_is_passed_over() {
    let policies = [(2, 5, 1, 1), (2, 1, 1, 255)];
    expect_both(&policies, [1, 1, 1], [1, 1, 1]);
}

#[test]
fn rank_and_issue_day_play_no_part() {
    let mut base = with_policies(&[(2, 1, 1, 255), (2, 5, 1, 255)]);
    for (rank, issue_day) in [(0, 1), (255, 0), (255, 65_535)] {
        base.policies[1].rank = rank;
        base.policies[1].issue_day = issue_day;
        expect_weights(600, &base, &[1, 1, 1]);
        base.policies.swap(0, 1);
        expect_weights(600, &base, &[5, 5, 5]);
        base.policies.swap(0, 1);
    }
}

#[test]
fn the_last_of_64_policies_counts() {
    let mut base = with_policies(&[(2, 5, 1, 1); 64]);
    expect_weights(600, &base, &[0, 0, 0]);
    base.policies[63].context = NO_CONTEXT;
    expect_weights(600, &base, &[5, 5, 5]);
}

#[test]
fn every_weight_from_1_to_5_counts() {
    for weight in 1..=5 {
        let base = with_policies(&[(2, weight, 1, 255)]);
        expect_weights(600, &base, &[weight, weight, weight]);
    }
}
