//! Of the policy only its role and its weight are looked at.

use crate::setups::*;
use compare::builder::*;

/// A policy of type 0 isn't inherited; the bound counts the seniors all the
/// same.
#[test]
fn a_policy_of_type_0_counts_entries_in_seniors() {
    let mut base = open_base(&CHAIN);
    for kind in [0, 1] {
        base.policies[7].inheritable = kind;
        expect(&base, 7, 5, &in_roles(&[0, 3, 7]), 12);
        expect(&base, 7, 5, &[[0, 6]], 4);
    }
}

/// The second of its role and permission never counts where the first is
/// active.
#[test]
fn a_policy_behind_another_of_its_role_and_permission_counts() {
    let mut base = open_base(&[(0, 1)]);
    base.policies = vec![
        Policy::new(1, 0, 2, 1, NO_CONTEXT),
        Policy::new(1, 0, 5, 1, NO_CONTEXT),
    ];
    expect(&base, 0, 4, &in_roles(&[0, 1]), 4);
    expect(&base, 1, 4, &in_roles(&[0, 1]), 2);
}

#[test]
fn a_policy_of_the_same_bytes_as_another_counts() {
    let mut base = open_base(&[(0, 1)]);
    base.policies = vec![Policy::new(1, 0, 2, 1, NO_CONTEXT); 64];
    for policy in [0, 1, 31, 62, 63] {
        expect(&base, policy, 4, &in_roles(&[0, 1]), 4);
    }
}

#[test]
fn a_context_without_clauses_never_holds_and_counts() {
    let mut base = open_base(&CHAIN);
    for context in 0..16 {
        base.policies[2].context = context;
        expect(&base, 2, 5, &in_roles(&[0, 1, 2, 3]), 12);
    }
}

/// Minute < 0; day 0 and day 6 at once.
#[test]
fn a_context_that_can_not_hold_counts() {
    let mut base = open_base(&CHAIN);
    base.policies[2].context = 4;
    for clause in [&[(0, 1, 0)][..], &[(1, 4, 0), (1, 4, 6)]] {
        base.context_clauses = vec![ContextClause::new(4, clause)];
        expect(&base, 2, 5, &in_roles(&[0, 1, 2, 3]), 12);
    }
}

#[test]
fn a_context_that_holds_at_times_counts() {
    let mut base = open_base(&CHAIN);
    base.policies[2].context = 4;
    base.context_clauses = vec![ContextClause::new(4, &[(0, 4, 600)])];
    expect(&base, 2, 5, &in_roles(&[0, 1, 2, 3]), 12);
}

#[test]
fn the_permission_plays_no_part() {
    let mut base = open_base(&[(0, 1)]).with_permissions(16);
    for permission in 0..16 {
        base.policies[1].permission = permission;
        expect(&base, 1, 5, &in_roles(&[0, 1]), 8);
    }
    base.group_clauses = vec![GroupClause::new(15, &[(0, 0, 6)])];
    expect(&base, 1, 5, &in_roles(&[0, 1]), 8);
}

/// A group that is granted nothing, for want of weight or by its condition.
#[test]
fn a_group_without_weight_has_a_bound() {
    let mut base = open_base(&[(0, 1)]);
    base.policies = vec![Policy::new(1, 0, 1, 0, 15)];
    expect(&base, 0, 5, &in_roles(&[0, 1, 2]), 8);
    expect(&base, 0, 5, &in_roles(&[2, 3]), 0);
}

#[test]
fn rank_and_issue_day_play_no_part() {
    let mut base = open_base(&[(0, 1)]);
    for (rank, issue_day) in [(0, 0), (255, 65_535), (3, 256)] {
        base.policies[1].rank = rank;
        base.policies[1].issue_day = issue_day;
        expect(&base, 1, 5, &in_roles(&[0, 1]), 8);
    }
}

#[test]
fn each_policy_has_its_own_old_weight() {
    let mut base = open_base(&[]);
    base.policies = (1..=5)
        .map(|weight| Policy::new(0, 0, weight, 1, NO_CONTEXT))
        .collect();
    for (policy, bound) in [(0, 2), (1, 1), (2, 0), (3, 1), (4, 2)] {
        expect(&base, policy, 3, &[[0, 0]], bound);
    }
}

#[test]
fn each_policy_has_its_own_role() {
    let mut base = open_base(&CHAIN);
    base.policies.reverse();
    for policy in 0..8 {
        let seniors: Vec<u8> = (0..8 - policy as u8).collect();
        expect_reached(&base, policy, &seniors);
    }
}

/// Exclusions of roles and permissions, group clauses and other records.
#[test]
fn other_tables_play_no_part() {
    let mut base = open_base(&[(0, 1)]).with_permissions(2);
    base.exclusions = [(0, 0, 1), (1, 0, 1)]
        .map(|(kind, a, b)| Exclusion { kind, a, b })
        .to_vec();
    base.group_clauses = vec![GroupClause::new(0, &[(3, 6, 0b100)])];
    expect(&base, 1, 5, &in_roles(&[0, 1]), 8);
}
