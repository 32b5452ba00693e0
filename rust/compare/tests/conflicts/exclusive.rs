//! Kind 2: policies whose permissions exclude each other and that cover a role
//! in common.

use crate::setups::*;
use compare::builder::*;

/// Four roles, permissions 0 to 3 of which 0 and 2 exclude each other, and
/// these H records and policies.
fn base(pairs: &[(u8, u8)], policies: &[Policy]) -> BaseBuilder {
    BaseBuilder {
        hierarchy: edges(pairs),
        policies: policies.to_vec(),
        exclusions: exclusions(&[(1, 0, 2)]),
        ..BaseBuilder::new(4).with_permissions(4)
    }
}

const SHORT_CHAIN: [(u8, u8); 2] = [(0, 1), (1, 2)];

/// A policy's role and type.
type Covering = (u8, u8);

/// Expects that a policy for permission 0 and one for permission 2 conflict or
/// don't, in either order and with the permissions exchanged.
fn expect(pairs: &[(u8, u8)], one: Covering, other: Covering, conflict: bool) {
    let list = [[2, 0, 1]];
    let list = if conflict { &list[..] } else { &[] };
    for (a, b) in [(0, 2), (2, 0)] {
        let one = policy(one.0, a, 3, one.1);
        let other = policy(other.0, b, 3, other.1);
        expect_list(&base(pairs, &[one.clone(), other.clone()]), list);
        expect_list(&base(pairs, &[other, one]), list);
    }
}

#[test]
fn the_same_role_is_covered_by_both() {
    for kinds in [(0, 0), (0, 1), (1, 0), (1, 1)] {
        expect(&[], (1, kinds.0), (1, kinds.1), true);
    }
}

#[test]
fn other_permissions_are_not_excluded() {
    for other in [1, 3] {
        let pair = |a, b| base(&[], &[policy(1, a, 1, 1), policy(1, b, 1, 1)]);
        expect_list(&pair(0, other), &[]);
        expect_list(&pair(other, 2), &[]);
        expect_list(&pair(1, 3), &[]);
    }
}

#[test]
fn the_same_permission_in_both_is_not_excluded() {
    for permission in [0, 2] {
        let mut base = base(&[], &vec![policy(1, permission, 1, 1); 2]);
        expect_list(&base, &[]);
        base.policies[1].weight = 2;
        expect_list(&base, &[[1, 0, 1]]);
    }
}

#[test]
fn a_repeated_exclusion_gives_a_pair_once() {
    let mut base = base(&[], &[policy(1, 2, 1, 0), policy(1, 0, 1, 0)]);
    base.exclusions = exclusions(&[(1, 0, 2); 32]);
    expect_list(&base, &[[2, 0, 1]]);
}

#[test]
fn an_exclusion_of_roles_excludes_no_permissions() {
    let mut base = base(&[], &[policy(1, 0, 1, 0), policy(1, 2, 1, 0)]);
    base.exclusions = exclusions(&[(0, 0, 2)]);
    expect_list(&base, &[]);
    base.exclusions = exclusions(&[(0, 0, 2), (1, 1, 3), (1, 0, 2)]);
    expect_list(&base, &[[2, 0, 1]]);
    base.exclusions = vec![];
    expect_list(&base, &[]);
}

#[test]
fn a_junior_of_type_1_covers_its_seniors() {
    expect(&SHORT_CHAIN, (0, 0), (1, 1), true);
    expect(&SHORT_CHAIN, (1, 0), (2, 1), true);
    expect(&SHORT_CHAIN, (0, 1), (1, 1), true);
}

#[test]
fn a_junior_of_type_0_covers_itself_alone() {
    expect(&SHORT_CHAIN, (0, 0), (1, 0), false);
    expect(&SHORT_CHAIN, (0, 1), (1, 0), false);
    expect(&SHORT_CHAIN, (1, 1), (2, 0), false);
}

#[test]
fn coverage_goes_up_a_chain_and_not_down() {
    expect(&SHORT_CHAIN, (0, 0), (2, 1), true);
    expect(&SHORT_CHAIN, (0, 1), (2, 1), true);
    expect(&SHORT_CHAIN, (0, 1), (2, 0), false);
}

#[test]
fn without_a_chain_nothing_is_covered_in_common() {
    expect(&SHORT_CHAIN, (2, 1), (3, 1), false);
    expect(&[], (0, 1), (1, 1), false);
}

#[test]
fn a_common_senior_is_covered_by_both_of_type_1() {
    let pairs = [(0, 1), (0, 2)];
    expect(&pairs, (1, 1), (2, 1), true);
    expect(&pairs, (1, 0), (2, 1), false);
    expect(&pairs, (1, 1), (2, 0), false);
    expect(&pairs, (1, 0), (2, 0), false);
}

#[test]
fn a_common_junior_is_covered_by_neither() {
    expect(&[(0, 2), (1, 2)], (0, 1), (1, 1), false);
}

#[test]
fn chains_are_found_in_any_order_of_the_records() {
    let mut pairs = [(0, 1), (1, 2), (2, 3)];
    expect(&pairs, (0, 0), (3, 1), true);
    pairs.reverse();
    expect(&pairs, (0, 0), (3, 1), true);
    expect(&pairs[..2], (0, 0), (3, 1), false);
}

#[test]
fn a_chain_of_eight_roles() {
    let mut base = base(&CHAIN, &[policy(0, 0, 1, 0), policy(7, 2, 1, 1)]);
    base.roles = 8;
    expect_list(&base, &[[2, 0, 1]]);
    base.hierarchy.remove(3);
    expect_list(&base, &[]);
}

/// Two chains lead from role 0 to role 3.
#[test]
fn two_chains_give_a_pair_once() {
    let pairs = [(0, 1), (0, 2), (1, 3), (2, 3), (2, 3)];
    expect(&pairs, (0, 0), (3, 1), true);
    expect(&pairs, (1, 1), (3, 1), true);
}

#[test]
fn contexts_play_no_part() {
    let mut base = base(&[], &[policy(1, 0, 1, 0), policy(1, 2, 1, 0)]);
    base.context_clauses = vec![
        ContextClause::new(0, &[(0, 1, 600)]),
        ContextClause::new(1, &[(0, 2, 600)]),
        ContextClause::new(2, &[(0, 1, 0)]),
    ];
    for (one, other) in [(0, 1), (2, 2), (9, 9), (9, 255), (0, 0), (255, 255)] {
        base.policies[0].context = one;
        base.policies[1].context = other;
        expect_list(&base, &[[2, 0, 1]]);
    }
}

#[test]
fn weight_rank_and_day_play_no_part() {
    let mut base = base(&[], &[policy(1, 0, 1, 0), policy(1, 2, 5, 0)]);
    base.policies[1].rank = 9;
    base.policies[1].issue_day = 300;
    expect_list(&base, &[[2, 0, 1]]);
}

#[test]
fn the_last_permission_and_the_last_policy() {
    let mut policies = vec![policy(1, 3, 1, 0); 64];
    policies[0] = policy(1, 0, 1, 0);
    policies[63] = policy(1, 15, 1, 0);
    let mut base = base(&[], &policies).with_permissions(16);
    base.exclusions = exclusions(&[(1, 0, 15)]);
    expect_list(&base, &[[2, 0, 63]]);
}
