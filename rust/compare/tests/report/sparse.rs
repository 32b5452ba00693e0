//! Few users for each role: hardly a way to the group, or just none.

use crate::setups::*;
use compare::builder::*;

const SIX_ROLES: &[GroupCondition] = &[(3, 6, 0b11_1111)];

/// 24 users, of whom these hold roles.
fn only(holders: &[(u8, &[u8])]) -> Vec<User> {
    let mut users = vec![user(&[]); 24];
    for (place, roles) in holders {
        users[usize::from(*place)] = user(roles);
    }
    users
}

fn six_roles(users: Vec<User>) -> BaseBuilder {
    base_of(&[1, 2, 3, 4, 5, 1], users, &[SIX_ROLES])
}

#[test]
fn one_holder_a_role() {
    let places = [0, 5, 11, 17, 22, 23];
    let roles = [&[0], &[1], &[2], &[3], &[4], &[5]];
    let holders: Vec<(u8, &[u8])> = (0..6).map(|i| (places[i], &roles[i][..])).collect();
    let group: Vec<[u8; 2]> = (0..6).map(|i| [places[i], roles[i][0]]).collect();
    expect_only_group(&six_roles(only(&holders)), &group);
    expect_numbers(&six_roles(only(&holders[1..])), &[0]);
}

#[test]
fn one_holder_a_role_in_the_other_order() {
    let places = [1, 2, 3, 12, 13, 23];
    let roles = [&[5], &[4], &[3], &[2], &[1], &[0]];
    let holders: Vec<(u8, &[u8])> = (0..6).map(|i| (places[i], &roles[i][..])).collect();
    let group: Vec<[u8; 2]> = (0..6).map(|i| [places[i], roles[i][0]]).collect();
    expect_only_group(&six_roles(only(&holders)), &group);
    expect_numbers(&six_roles(only(&holders[..5])), &[0]);
}

/// Each holds the next one's role too, so the last one's only role decides
/// about all.
#[test]
fn each_role_is_left_to_one() {
    let rising: [(u8, &[u8]); 6] = [
        (3, &[0, 1]),
        (4, &[1, 2]),
        (9, &[2, 3]),
        (14, &[3, 4]),
        (20, &[4, 5]),
        (21, &[5]),
    ];
    let group = [[3, 0], [4, 1], [9, 2], [14, 3], [20, 4], [21, 5]];
    expect_only_group(&six_roles(only(&rising)), &group);
    let falling: [(u8, &[u8]); 6] = [
        (3, &[5]),
        (4, &[4, 5]),
        (9, &[3, 4]),
        (14, &[2, 3]),
        (20, &[1, 2]),
        (21, &[0, 1]),
    ];
    let group = [[3, 5], [4, 4], [9, 3], [14, 2], [20, 1], [21, 0]];
    expect_only_group(&six_roles(only(&falling)), &group);
}

/// Roles 0 and 1 are held by one user alone, who can act in one of them.
#[test]
fn two_roles_of_one_user_do_not_come_together() {
    let holders: [(u8, &[u8]); 6] = [
        (0, &[0, 1]),
        (1, &[2]),
        (2, &[3]),
        (3, &[4]),
        (4, &[5]),
        (5, &[2, 3, 4, 5]),
    ];
    expect_numbers(&six_roles(only(&holders)), &[0]);
}

/// 2 + 2 + 5: the users of weight 2 stand before and behind that of weight 5.
#[test]
fn a_sum_over_users_far_apart() {
    let users = only(&[(0, &[1]), (10, &[0]), (23, &[1])]);
    let base = base_of(&[5, 2], users, &[&[(1, 4, 9)]]);
    expect_only_group(&base, &[[0, 1], [10, 0], [23, 1]]);
}

/// Users of two to four roles, weights 1 to 5. For the sum 6 with three roles
/// somebody has to act in each of roles 0, 1 and 2: user 1 holds roles 0 and
/// 1, user 2 roles 1 and 2, user 6 roles 0 and 2, and role 2 is also user 8's.
#[test]
fn users_of_several_roles_and_a_sum() {
    let users = only(&[
        (1, &[0, 1]),
        (2, &[1, 2]),
        (6, &[0, 2]),
        (8, &[2, 3, 4]),
        (9, &[3, 4]),
    ]);
    let three: &[GroupCondition] = &[(1, 4, 6), (2, 4, 3)];
    expect_numbers(&base_of(&[1, 2, 3, 4, 5], users.clone(), &[three]), &[3]);
    let heavy: &[GroupCondition] = &[(1, 4, 10), (3, 6, 0b1_0000)];
    expect_only_group(
        &base_of(&[1, 2, 3, 4, 5], users.clone(), &[heavy]),
        &[[8, 4], [9, 4]],
    );
    let none: &[GroupCondition] = &[(3, 6, 0b1_1000), (2, 4, 2), (0, 2, 3)];
    expect_numbers(&base_of(&[1, 2, 3, 4, 5], users, &[none]), &[0]);
}

/// The role is held twice; a third entry in it isn't to be had.
#[test]
fn a_role_runs_out() {
    let users = only(&[(7, &[0]), (19, &[0, 1]), (23, &[1])]);
    for (sum, k) in [(4, 1), (8, 2), (12, 0), (9, 3), (5, 2), (6, 3)] {
        let base = base_of(&[4, 1], users.clone(), &[&[(1, 4, sum)]]);
        expect_numbers(&base, &[k]);
    }
}
