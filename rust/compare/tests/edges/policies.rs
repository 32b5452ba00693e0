//! Refusal 8: A records.

use compare::builder::{BaseBuilder, Policy, NO_CONTEXT};
use compare::expect_check;

/// Expects this answer for a base of three roles and two permissions whose
/// only policy is changed.
fn expect_policy(change: impl FnOnce(&mut Policy), answer: u8) {
    let mut policy = Policy::new(0, 0, 1, 0, NO_CONTEXT);
    change(&mut policy);
    let mut base = BaseBuilder::new(3).with_permissions(2);
    base.policies.push(policy);
    expect_check(&base.bytes(), answer);
}

#[test]
fn a_plain_policy_passes() {
    expect_policy(|_| (), 0);
}

/// The base has no context clause at all.
#[test]
fn context_15_without_clauses_passes() {
    expect_policy(|policy| policy.context = 15, 0);
}

#[test]
fn context_0_without_clauses_passes() {
    expect_policy(|policy| policy.context = 0, 0);
}

#[test]
fn context_16_is_refused() {
    expect_policy(|policy| policy.context = 16, 8);
}

#[test]
fn context_254_is_refused() {
    expect_policy(|policy| policy.context = 254, 8);
}

#[test]
fn context_255_is_none_and_passes() {
    expect_policy(|policy| policy.context = 255, 0);
}

#[test]
fn weight_0_is_refused() {
    expect_policy(|policy| policy.weight = 0, 8);
}

#[test]
fn weight_1_passes() {
    expect_policy(|policy| policy.weight = 1, 0);
}

#[test]
fn weight_5_passes() {
    expect_policy(|policy| policy.weight = 5, 0);
}

#[test]
fn weight_6_is_refused() {
    expect_policy(|policy| policy.weight = 6, 8);
    expect_policy(|policy| policy.weight = 255, 8);
}

#[test]
fn type_0_passes() {
    expect_policy(|policy| policy.inheritable = 0, 0);
}

#[test]
fn type_1_passes() {
    expect_policy(|policy| policy.inheritable = 1, 0);
}

#[test]
fn type_2_is_refused() {
    expect_policy(|policy| policy.inheritable = 2, 8);
    expect_policy(|policy| policy.inheritable = 255, 8);
}

#[test]
fn the_last_role_passes() {
    expect_policy(|policy| policy.role = 2, 0);
}

#[test]
fn a_role_at_r_is_refused() {
    expect_policy(|policy| policy.role = 3, 8);
    expect_policy(|policy| policy.role = 255, 8);
}

#[test]
fn the_last_permission_passes() {
    expect_policy(|policy| policy.permission = 1, 0);
}

#[test]
fn a_permission_past_the_last_is_refused() {
    expect_policy(|policy| policy.permission = 2, 8);
    expect_policy(|policy| policy.permission = 255, 8);
}

#[test]
fn every_rank_passes() {
    for rank in 0..=255 {
        expect_policy(|policy| policy.rank = rank, 0);
    }
}

#[test]
fn every_kind_of_issue_day_passes() {
    for day in [0, 1, 255, 256, 65_535] {
        expect_policy(|policy| policy.issue_day = day, 0);
    }
}

#[test]
fn without_permissions_every_policy_is_refused() {
    let mut base = BaseBuilder::new(3);
    base.policies = vec![Policy::new(0, 0, 1, 0, NO_CONTEXT)];
    expect_check(&base.bytes(), 8);
}

#[test]
fn conflicting_policies_pass() {
    let mut base = BaseBuilder::new(3).with_permissions(1);
    base.policies = vec![
        Policy::new(0, 0, 1, 0, NO_CONTEXT),
        Policy::new(0, 0, 5, 1, NO_CONTEXT),
        Policy::new(0, 0, 1, 0, NO_CONTEXT),
    ];
    expect_check(&base.bytes(), 0);
}

#[test]
fn a_bad_policy_is_found_at_every_place() {
    for place in 0..64 {
        let mut base = BaseBuilder::new(3).with_permissions(2);
        base.policies = vec![Policy::new(0, 0, 1, 0, NO_CONTEXT); 64];
        base.policies[place].weight = 6;
        expect_check(&base.bytes(), 8);
    }
}
