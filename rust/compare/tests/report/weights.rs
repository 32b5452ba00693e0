//! Roles without weight can't be acted in, and weights come from seniors'
//! juniors, contexts and the first policy.

use crate::setups::*;
use compare::builder::*;

const ANY: &[GroupCondition] = &[(0, 2, 1)];

#[test]
fn a_role_without_weight_is_not_acted_in() {
    expect_numbers(&base_of(&[0], vec![user(&[0])], &[ANY]), &[0]);
    let two = users(&[&[0], &[0, 1]]);
    expect_only_group(&base_of(&[0, 1], two, &[ANY]), &[[1, 1]]);
}

/// The set holds the role acted in, not the senior's juniors; and nobody acts in
/// role 1, which has no weight.
#[test]
fn a_senior_is_not_its_junior_in_the_set() {
    let mut base = base_of(&[1, 0], users(&[&[0], &[0]]), &[&[(3, 6, 0b10)]]);
    base.hierarchy = edges(&[(0, 1)]);
    expect_numbers(&base, &[0]);
}

/// The senior has no policy, but its junior's weight. Both act as seniors.
#[test]
fn a_role_acts_with_inherited_weight() {
    let seniors: &[GroupCondition] = &[(1, 2, 8), (3, 6, 0b01), (2, 4, 1)];
    let mut base = base_of(&[0, 4], users(&[&[0], &[0]]), &[seniors]);
    base.hierarchy = edges(&[(0, 1)]);
    expect_numbers(&base, &[0]);
    base.policies[0].inheritable = 1;
    expect_only_group(&base, &[[0, 0], [1, 0]]);
}

/// Two chains lead from role 0 to role 3, which counts once: role 0 weighs 3,
/// and the others 2.
#[test]
fn a_junior_counts_once() {
    let mut base = base_of(&[1, 0, 0, 2], users(&[&[0], &[0], &[0]]), &[]);
    base.hierarchy = edges(&[(0, 1), (0, 2), (1, 3), (2, 3)]);
    base.policies[1].inheritable = 1;
    for (sum, k) in [(3, 1), (4, 2), (5, 2), (6, 2), (7, 3), (8, 3), (9, 3)] {
        base.group_clauses = vec![GroupClause::new(0, &[(1, 4, sum)])];
        expect_numbers(&base, &[k]);
    }
    for (sum, k) in [(3, 1), (4, 0), (5, 0), (6, 2), (9, 3)] {
        let seniors = [(1, 4, sum), (3, 6, 0b0001), (2, 4, 1)];
        base.group_clauses = vec![GroupClause::new(0, &seniors)];
        expect_numbers(&base, &[k]);
    }
}

/// The policy holds from minute 600 on.
#[test]
fn a_policy_counts_where_its_context_holds() {
    let mut base = base_of(&[1], vec![user(&[0])], &[ANY]);
    base.policies[0].context = 3;
    base.context_clauses = vec![ContextClause::new(3, &[(0, 2, 600)])];
    expect_numbers_at(599, &base, &[0]);
    expect_numbers_at(600, &base, &[1]);
    base.policies[0].context = 4;
    expect_numbers_at(600, &base, &[0]);
}

/// Until minute 600 the first policy's weight counts, then the second's.
#[test]
fn the_first_active_policy_counts() {
    let mut base = base_of(&[5], vec![user(&[0]); 6], &[&[(1, 4, 10)]]);
    base.policies[0].context = 0;
    base.policies.push(Policy::new(0, 0, 2, 0, NO_CONTEXT));
    base.context_clauses = vec![ContextClause::new(0, &[(0, 1, 600)])];
    expect_numbers_at(599, &base, &[2]);
    expect_numbers_at(600, &base, &[5]);
}

/// The same users and roles, other weights: 5 and 1.
#[test]
fn each_permission_has_its_own_weights() {
    let mut base = base_of(&[5], vec![user(&[0]); 6], &[&[(1, 4, 5)]]);
    base.permissions.push(base.permissions[0].clone());
    base.policies.push(Policy::new(0, 1, 1, 0, NO_CONTEXT));
    base.group_clauses.push(GroupClause::new(1, &[(1, 4, 5)]));
    expect_numbers(&base, &[1, 5]);
}
