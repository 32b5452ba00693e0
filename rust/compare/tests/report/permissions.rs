//! Several permissions in one base: what one asks for changes nothing for
//! another, in whatever order they stand.

use crate::setups::*;
use compare::builder::*;

/// A permission's weights by role, 0 for none, its conditions and the number
/// that is expected.
type Asked<'a> = (&'a [u8], &'a [GroupCondition], u8);

/// A base with these permissions, for users who hold these roles.
fn base_of_all(roles: u8, users: &[User], all: &[Asked]) -> BaseBuilder {
    let mut base = BaseBuilder::new(roles).with_permissions(all.len());
    base.users = users.to_vec();
    for (permission, (weights, conditions, _)) in (0..).zip(all) {
        let weighted = (0..).zip(*weights).filter(|(_, weight)| **weight > 0);
        let policies = weighted.map(|(role, w)| Policy::new(role, permission, *w, 0, NO_CONTEXT));
        base.policies.extend(policies);
        if !conditions.is_empty() {
            let clause = GroupClause::new(permission, conditions);
            base.group_clauses.push(clause);
        }
    }
    base
}

/// Expects the numbers in this order, in the other, and with each permission
/// first in turn.
fn expect_in_every_order(roles: u8, users: &[User], all: &[Asked]) {
    let expect = |all: &[Asked]| {
        let numbers: Vec<u8> = all.iter().map(|asked| asked.2).collect();
        expect_with_more_roles(&base_of_all(roles, users, all), &numbers);
    };
    let mut all = all.to_vec();
    for _ in 0..all.len() {
        expect(&all);
        all.rotate_left(1);
    }
    all.reverse();
    expect(&all);
}

#[test]
fn six_entries_before_one() {
    for roles in [1, 5, 6, 8] {
        let held: Vec<u8> = (0..roles).collect();
        let weights = vec![1; roles.into()];
        let all = [6, 1, 5, 2, 4, 3].map(|n| [(0, 4, n)]);
        let all: Vec<Asked> = all.iter().map(|c| (&weights[..], &c[..], c[0].2)).collect();
        expect_in_every_order(roles, &vec![user(&held); 6], &all[..2]);
        expect_in_every_order(roles, &vec![user(&held); 6], &all);
    }
}

/// Three users: six can't come together, whether asked for first or last.
#[test]
fn more_than_there_are_users() {
    let all: [Asked; 4] = [
        (&[1, 2, 3, 4, 5], &[(0, 2, 6)], 0),
        (&[1, 2, 3, 4, 5], &[(0, 2, 3)], 3),
        (&[1, 2, 3, 4, 5], &[(0, 2, 4)], 0),
        (&[1, 2, 3, 4, 5], &[(1, 4, 15)], 3),
    ];
    expect_in_every_order(5, &vec![user(&[0, 1, 2, 3, 4]); 3], &all);
}

/// Many roles and heavy weights beside few and light ones: 5 is one entry or
/// five, 30 six or none.
#[test]
fn other_weights_and_fewer_roles() {
    let heavy = [5; 5];
    let all: [Asked; 6] = [
        (&heavy, &[(1, 4, 30)], 6),
        (&[1], &[(1, 4, 5)], 5),
        (&heavy, &[(1, 4, 5)], 1),
        (&[0, 0, 1], &[(1, 4, 5), (2, 4, 1)], 5),
        (&[0, 0, 0, 0, 2], &[(1, 4, 10)], 5),
        (&[1], &[(1, 4, 30)], 0),
    ];
    expect_in_every_order(5, &vec![user(&[0, 1, 2, 3, 4]); 6], &all);
}

/// Permissions without weight, without a clause or without a group between
/// others.
#[test]
fn permissions_that_nobody_can_release() {
    let all: [Asked; 6] = [
        (&[0, 0, 0], &[(0, 2, 1)], 0),
        (&[1, 2, 3], &[(0, 2, 6)], 6),
        (&[1, 2, 3], &[], 0),
        (&[1, 2, 3], &[(1, 4, 6), (0, 3, 2)], 2),
        (&[1, 2, 3], &[(1, 0, 18)], 0),
        (&[1, 2, 3], &[(1, 1, 2)], 1),
    ];
    expect_in_every_order(3, &vec![user(&[0, 1, 2]); 6], &all);
}

/// Sixteen permissions, each with the role that it needs and a number.
#[test]
fn sixteen_permissions() {
    let conditions: Vec<[GroupCondition; 2]> = (0..16)
        .map(|p| [(3, 6, 1 << (p % 4)), (0, 2, 1 + p % 6)])
        .collect();
    let weights: Vec<[u8; 4]> = (0..16_u8).map(|p| [1, 2, 3, 1 + p % 5]).collect();
    let mut all: Vec<Asked> = (0..16)
        .map(|p| (&weights[p][..], &conditions[p][..], 1 + p as u8 % 6))
        .collect();
    let users = vec![user(&[0, 1, 2, 3]); 24];
    for _ in 0..2 {
        let numbers: Vec<u8> = all.iter().map(|asked| asked.2).collect();
        expect_with_more_roles(&base_of_all(4, &users, &all), &numbers);
        all.reverse();
    }
}
