//! Kind 1: policies of equal role and permission that differ in weight or
//! type. None of them has a context.

use crate::setups::*;
use compare::builder::*;

/// Three roles, 0 over 1 over 2, and three permissions, with these policies.
fn with_policies(policies: &[Policy]) -> BaseBuilder {
    BaseBuilder {
        hierarchy: edges(&[(0, 1), (1, 2)]),
        policies: policies.to_vec(),
        ..BaseBuilder::new(3).with_permissions(3)
    }
}

fn expect_pair(one: Policy, other: Policy, conflict: bool) {
    let list = [[1, 0, 1]];
    let list = if conflict { &list[..] } else { &[] };
    expect_list(&with_policies(&[one.clone(), other.clone()]), list);
    expect_list(&with_policies(&[other, one]), list);
}

#[test]
fn different_weight_conflicts() {
    expect_pair(policy(1, 2, 3, 0), policy(1, 2, 4, 0), true);
    expect_pair(policy(1, 2, 3, 1), policy(1, 2, 4, 1), true);
}

#[test]
fn different_type_conflicts() {
    expect_pair(policy(1, 2, 3, 0), policy(1, 2, 3, 1), true);
}

#[test]
fn different_weight_and_type_conflict() {
    expect_pair(policy(1, 2, 3, 0), policy(1, 2, 4, 1), true);
}

#[test]
fn equal_weight_and_type_do_not_conflict() {
    expect_pair(policy(1, 2, 3, 0), policy(1, 2, 3, 0), false);
    expect_pair(policy(1, 2, 3, 1), policy(1, 2, 3, 1), false);
}

#[test]
fn every_two_weights_and_types() {
    let all = || (1..=5).flat_map(|weight| [(weight, 0), (weight, 1)]);
    for one in all() {
        for other in all() {
            let of = |(weight, kind)| policy(1, 2, weight, kind);
            expect_pair(of(one), of(other), one != other);
        }
    }
}

#[test]
fn rank_and_issue_day_make_no_conflict() {
    let plain = policy(1, 2, 3, 1);
    for (rank, issue_day) in [(1, 0), (0, 1), (0, 256), (255, 65_535)] {
        let other = Policy {
            rank,
            issue_day,
            ..plain.clone()
        };
        expect_pair(plain.clone(), other, false);
    }
}

#[test]
fn rank_and_issue_day_settle_no_conflict() {
    let newer = Policy {
        rank: 255,
        issue_day: 65_535,
        ..policy(1, 2, 4, 1)
    };
    expect_pair(policy(1, 2, 3, 1), newer, true);
}

#[test]
fn other_roles_do_not_conflict_not_even_junior_and_senior() {
    for kind in [0, 1] {
        expect_pair(policy(0, 2, 3, kind), policy(1, 2, 4, kind), false);
        expect_pair(policy(0, 2, 3, kind), policy(2, 2, 4, kind), false);
    }
}

/// The three permissions have equal contents and different numbers.
#[test]
fn other_permissions_do_not_conflict() {
    expect_pair(policy(1, 1, 3, 0), policy(1, 2, 4, 0), false);
    expect_pair(policy(1, 0, 3, 0), policy(1, 2, 3, 1), false);
}

/// Neither a policy with itself nor a pair turned round stands in the list.
#[test]
fn each_pair_stands_once_with_the_smaller_number_first() {
    let policies = [5, 1, 3].map(|weight| policy(1, 2, weight, 0));
    expect_list(
        &with_policies(&policies),
        &[[1, 0, 1], [1, 0, 2], [1, 1, 2]],
    );
    expect_list(&with_policies(&policies[..1]), &[]);
}

#[test]
fn equal_policies_between_others_are_left_out() {
    let policies = [2, 2, 1, 2].map(|weight| policy(1, 2, weight, 0));
    expect_list(
        &with_policies(&policies),
        &[[1, 0, 2], [1, 1, 2], [1, 2, 3]],
    );
}

#[test]
fn the_first_and_the_last_of_64_policies_conflict() {
    let mut policies = vec![policy(2, 2, 1, 0); 64];
    policies[0] = policy(1, 1, 1, 0);
    policies[63] = policy(1, 1, 2, 0);
    expect_list(&with_policies(&policies), &[[1, 0, 63]]);
}
