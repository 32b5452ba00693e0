//! Users of several roles: who takes which role decides whether there is a
//! group.

use crate::setups::*;
use compare::builder::*;

/// The first user has to take the second role for the sum.
#[test]
fn the_first_user_takes_the_second_role() {
    let five: &[GroupCondition] = &[(1, 4, 5)];
    let base = |roles: &[&[u8]]| base_of(&[3, 2], users(roles), &[five]);
    expect_only_group(&base(&[&[0, 1], &[0]]), &[[0, 1], [1, 0]]);
    expect_only_group(&base(&[&[0], &[0, 1]]), &[[0, 0], [1, 1]]);
    expect_only_group(&base(&[&[0, 1], &[1]]), &[[0, 0], [1, 1]]);
    expect_only_group(&base(&[&[1], &[0, 1]]), &[[0, 1], [1, 0]]);
    expect_one(&[3, 2], &[&[0], &[0]], &[five], 0);
    expect_one(&[3, 2], &[&[0, 1]], &[five], 0);
}

/// Two in role 0 and one in role 1, which only one user holds.
#[test]
fn the_only_holder_takes_the_role() {
    let conditions: &[GroupCondition] = &[(0, 4, 3), (2, 4, 2), (1, 4, 7)];
    for place in 0..3 {
        let mut roles: [&[u8]; 3] = [&[0]; 3];
        roles[place] = &[0, 1];
        let base = base_of(&[3, 1], users(&roles), &[conditions]);
        let group = [0, 1, 2].map(|user| [user, u8::from(usize::from(user) == place)]);
        expect_only_group(&base, &group);
        expect_with_more_roles(&base, &[3]);
    }
}

/// Two of three users hold role 0 alone: whatever the third takes, one of the
/// other two roles is left.
#[test]
fn three_roles_that_three_users_cannot_share() {
    let roles: [&[u8]; 3] = [&[0], &[0], &[0, 1, 2]];
    for (conditions, k) in [
        (vec![(3, 6, 0b111)], 0),
        (vec![(2, 2, 3)], 0),
        (vec![(2, 2, 2)], 2),
        (vec![(2, 4, 2), (0, 4, 3)], 3),
        (vec![(3, 6, 0b110)], 0),
        (vec![(3, 6, 0b101)], 2),
    ] {
        expect_one(&[1, 1, 1], &roles, &[&conditions], k);
        let reversed: Vec<&[u8]> = roles.into_iter().rev().collect();
        expect_one(&[1, 1, 1], &reversed, &[&conditions], k);
    }
}

/// Roles 0 and 1 are one user's alone: both would have him stand twice.
#[test]
fn nobody_stands_twice() {
    let roles: [&[u8]; 3] = [&[2], &[0, 1], &[2]];
    let both: &[GroupCondition] = &[(3, 6, 0b011)];
    let three: &[GroupCondition] = &[(0, 2, 3)];
    let heavy: &[GroupCondition] = &[(1, 2, 9)];
    expect_one(&[5, 4, 1], &roles, &[both], 0);
    expect_one(&[5, 4, 1], &roles, &[heavy], 0);
    expect_one(&[5, 4, 1], &roles, &[both, heavy, three], 3);
    let with_another: [&[u8]; 4] = [&[2], &[0, 1], &[2], &[1]];
    expect_one(&[5, 4, 1], &with_another, &[both], 2);
    expect_one(&[5, 4, 1], &with_another, &[heavy], 2);
    expect_one(&[1; 4], &[&[0, 1, 2, 3]], &[&[(0, 2, 2)]], 0);
    expect_one(&[1; 4], &[&[0, 1, 2, 3]], &[&[(2, 2, 2)]], 0);
    expect_one(&[1; 4], &[&[0, 1, 2, 3]], &[&[(1, 2, 2)]], 0);
    expect_one(&[1; 4], &[&[0, 1, 2, 3]], &[&[(1, 2, 1)]], 1);
}

const SIX: &[GroupCondition] = &[(3, 6, 0b11_1111)];

fn six_roles(users: Vec<User>) -> BaseBuilder {
    base_of(&[1, 2, 3, 4, 5, 1], users, &[SIX])
}

/// Each user holds two roles in a ring; without one of the twelve only one way
/// is left.
#[test]
fn a_ring_of_roles() {
    let ring: Vec<User> = (0..6).map(|i| user(&[i, (i + 1) % 6])).collect();
    expect_with_more_roles(&six_roles(ring.clone()), &[6]);
    let mut without = ring.clone();
    without[5] = user(&[0]);
    let group = [[0, 1], [1, 2], [2, 3], [3, 4], [4, 5], [5, 0]];
    expect_only_group(&six_roles(without.clone()), &group);
    without[4] = user(&[4]);
    expect_with_more_roles(&six_roles(without), &[0]);
    expect_with_more_roles(&six_roles(ring[1..].to_vec()), &[0]);
}

/// Each user holds all roles but one, and not the same one.
#[test]
fn all_but_one() {
    let but = |role: u8| {
        let others: Vec<u8> = (0..6).filter(|other| *other != role).collect();
        user(&others)
    };
    expect_with_more_roles(&six_roles((0..6).map(but).collect()), &[6]);
    expect_with_more_roles(&six_roles((1..6).map(but).collect()), &[0]);
    expect_with_more_roles(&six_roles(vec![but(3); 6]), &[0]);
}

/// Sums where each user's heaviest role, or the first users, lead astray: the
/// users weigh 4 or 1, 4 or 2, 3 or 2, and 3.
#[test]
fn shares_by_the_sum() {
    let roles: [&[u8]; 4] = [&[0, 3], &[0, 2], &[1, 2], &[1]];
    for (conditions, k) in [
        (vec![(1, 4, 5)], 2),
        (vec![(1, 4, 14)], 4),
        (vec![(1, 4, 8), (0, 4, 4)], 4),
        (vec![(1, 4, 9), (0, 4, 4)], 4),
        (vec![(1, 4, 7), (0, 4, 4)], 0),
        (vec![(1, 4, 15)], 0),
        (vec![(1, 4, 6), (2, 4, 3)], 3),
        (vec![(1, 4, 11), (2, 4, 2)], 3),
        (vec![(1, 4, 12), (2, 4, 2)], 0),
        (vec![(1, 4, 12), (2, 4, 3)], 4),
    ] {
        expect_one(&[4, 3, 2, 1], &roles, &[&conditions], k);
        let reversed: Vec<&[u8]> = roles.into_iter().rev().collect();
        expect_one(&[4, 3, 2, 1], &reversed, &[&conditions], k);
    }
}
