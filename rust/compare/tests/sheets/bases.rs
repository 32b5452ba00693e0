//! A sheet that is opened, signed and asked about against different bases: it
//! keeps nothing of any of them.

use crate::setups::*;
use compare::builder::*;

/// The base with this parameter for a user.
fn with_parameter(user: usize, parameter: u32) -> BaseBuilder {
    let mut base = open_base();
    base.users[user].parameter = parameter;
    base
}

#[test]
fn asked_against_a_base_that_lost_a_user() {
    let mut day = Day::new();
    let fewer = BaseBuilder {
        users: open_base().users[..7].to_vec(),
        ..open_base()
    };
    day.open(&open_base(), 0, 0);
    day.sign(&open_base(), 7, 1, 0);
    day.ask(&open_base(), 0);
    day.ask(&fewer, 13);
    day.ask(&open_base(), 0);
    day.holds(0, &[[7, 1]]);
}

#[test]
fn asked_against_a_base_of_fewer_roles() {
    let mut day = Day::new();
    let mut fewer = open_base();
    fewer.roles = 2;
    fewer.users = vec![User::always(15); 8];
    fewer.policies.retain(|policy| policy.role < 2);
    day.open(&open_base(), 0, 0);
    day.sign(&open_base(), 0, 2, 0);
    day.ask(&fewer, 13);
    day.sign(&fewer, 1, 2, 13);
    day.sign(&fewer, 1, 1, 0);
    day.ask(&open_base(), 0);
    day.holds(0, &[[0, 2], [1, 1]]);
}

/// A role that was held when the user signed, and isn't when it is asked.
#[test]
fn signed_against_one_base_and_asked_against_another() {
    let mut day = Day::new();
    let (before, after) = (with_parameter(3, 3), with_parameter(3, 5));
    day.open(&before, 0, 0);
    day.sign(&before, 3, 1, 15);
    day.sign(&before, 3, 0, 0);
    day.ask(&before, 0);
    day.ask(&after, 15);
    day.sign(&after, 3, 1, 14);
    day.sign(&after, 4, 1, 0);
    day.ask(&after, 15);
    day.ask(&before, 0);
    day.holds(0, &[[3, 0], [4, 1]]);
}

/// The permission is there when the sheet is opened, and later isn't.
#[test]
fn a_permission_that_is_gone_refuses_no_signing() {
    let mut day = Day::new();
    let fewer = BaseBuilder {
        users: open_base().users,
        ..BaseBuilder::new(3).with_permissions(1)
    };
    day.open(&open_base(), 1, 0);
    day.sign(&fewer, 0, 0, 0);
    day.ask(&fewer, 10);
    day.ask(&open_base(), 0);
    day.holds(1, &[[0, 0]]);
}

#[test]
fn a_sheet_whose_opening_was_refused_is_signed_and_gets_10() {
    let mut day = Day::new();
    day.open(&open_base(), 2, 10);
    day.holds(255, &[]);
    day.ask(&open_base(), 10);
    day.sign(&open_base(), 0, 0, 0);
    day.sign(&open_base(), 0, 1, 14);
    day.ask(&open_base(), 10);
    day.holds(255, &[[0, 0]]);
}

#[test]
fn a_refused_base_in_between_changes_nothing() {
    let mut day = Day::new();
    let mut damaged = open_base();
    damaged.policies[0].weight = 0;
    day.open(&open_base(), 0, 0);
    day.sign(&open_base(), 0, 0, 0);
    day.sign(&damaged, 1, 0, 8);
    day.ask(&damaged, 8);
    day.sign(&open_base(), 1, 0, 0);
    day.ask(&open_base(), 0);
    day.holds(0, &[[0, 0], [1, 0]]);
}

/// A refused signing leaves no trace: the user signs later.
#[test]
fn a_user_who_was_refused_signs_later() {
    let mut day = Day::new();
    let nobody = with_parameter(2, 1);
    day.open(&open_base(), 0, 0);
    day.sign(&nobody, 2, 0, 15);
    day.sign(&open_base(), 2, 3, 13);
    day.sign(&open_base(), 2, 0, 0);
    day.sign(&nobody, 2, 0, 14);
    day.holds(0, &[[2, 0]]);
}

#[test]
fn a_whole_morning() {
    let mut day = Day::new();
    let base = with_parameter(6, 3);
    day.open(&base, 1, 0);
    day.ask(&base, 12);
    let list = [
        ([5, 2], 0),
        ([8, 0], 13),
        ([1, 1], 0),
        ([5, 0], 14),
        ([6, 1], 15),
        ([6, 0], 0),
        ([0, 2], 0),
        ([2, 2], 0),
        ([3, 1], 0),
        ([4, 1], 20),
        ([6, 1], 14),
        ([9, 1], 13),
        ([7, 0], 20),
    ];
    let mut held = Vec::new();
    for ([user, role], answer) in list {
        day.sign(&base, user.into(), role.into(), answer);
        if answer == 0 {
            held.push([user, role]);
        }
        day.holds(1, &held);
    }
    day.ask(&base, 0);
    day.open(&base, 0, 0);
    day.holds(0, &[]);
    day.sign(&base, 7, 0, 0);
    day.holds(0, &[[7, 0]]);
}
