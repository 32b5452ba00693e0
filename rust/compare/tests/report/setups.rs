//! Bases that the edges start from, and what is expected of their reports.

use compare::builder::*;
use compare::questions::{at_date, at_minute, SOME_DATE};
use compare::shown::RECORD;
use compare::{expect_report, expect_report_refused, library_context};
use model::Context;

/// Expects these smallest numbers at minute 600, with buffers that are just
/// long enough and longer, and 19 with shorter ones.
pub fn expect_numbers(base: &BaseBuilder, numbers: &[u8]) {
    expect_numbers_at(600, base, numbers);
}

/// The same at another minute.
pub fn expect_numbers_at(minute: u32, base: &BaseBuilder, numbers: &[u8]) {
    expect_numbers_in(at_minute(minute), base, numbers);
}

/// The same at minute 600 on a date.
pub fn expect_numbers_on(date: u32, base: &BaseBuilder, numbers: &[u8]) {
    expect_numbers_in(at_date(600, date), base, numbers);
}

fn expect_numbers_in(at: Context, base: &BaseBuilder, numbers: &[u8]) {
    let bytes = base.bytes();
    let whole = RECORD * numbers.len();
    for length in [whole, whole + 1, whole + 40] {
        expect_report(&bytes, at, length, numbers);
    }
    for length in [0, whole / 2, whole.saturating_sub(1)] {
        if length < whole {
            expect_report_refused(&bytes, at, length, 19);
        }
    }
}

/// Expects that permission 0's only smallest group at minute 600 is this one.
pub fn expect_only_group(base: &BaseBuilder, group: &[[u8; 2]]) {
    expect_only_group_on(SOME_DATE, base, group);
}

/// The same on a date.
pub fn expect_only_group_on(date: u32, base: &BaseBuilder, group: &[[u8; 2]]) {
    let k = group.len() as u8;
    expect_numbers_on(date, base, &[k]);
    let mut expected = [255; RECORD];
    expected[0] = k;
    expected[1..1 + 2 * group.len()].copy_from_slice(&group.concat());
    let mut found = [0; RECORD];
    let at = library_context(at_date(600, date));
    release::answers::report(&base.bytes(), at, &mut found);
    assert_eq!(found, expected);
}

/// A user who holds these roles.
pub fn user(roles: &[u8]) -> User {
    let codes = roles.iter().map(|role| CODES[usize::from(*role)]);
    User::always(codes.product())
}

/// Users by the roles that they hold.
pub fn users(roles: &[&[u8]]) -> Vec<User> {
    roles.iter().map(|roles| user(roles)).collect()
}

/// A base of one permission. The roles have these weights of their own, 0 for
/// none, and no role is senior.
pub fn base_of(weights: &[u8], users: Vec<User>, clauses: &[&[GroupCondition]]) -> BaseBuilder {
    let weighted = (0..).zip(weights).filter(|(_, weight)| **weight > 0);
    BaseBuilder {
        users,
        group_clauses: clauses.iter().map(|c| GroupClause::new(0, c)).collect(),
        policies: weighted
            .map(|(role, weight)| Policy::new(role, 0, *weight, 0, NO_CONTEXT))
            .collect(),
        ..BaseBuilder::new(weights.len() as u8).with_permissions(1)
    }
}

/// So many users with the one role there is, which weighs 1.
pub fn alike(count: usize, conditions: &[GroupCondition]) -> BaseBuilder {
    base_of(&[1], vec![user(&[0]); count], &[conditions])
}

/// The base with more roles before or behind, which nobody holds and which
/// have no weight.
fn with_roles(base: &BaseBuilder, before: u8, behind: u8) -> BaseBuilder {
    let mut base = base.clone();
    base.roles += before + behind;
    for user in &mut base.users {
        let held = (0..8).filter(|&role| user.parameter % CODES[role] == 0);
        let codes = held.map(|role| CODES[role + usize::from(before)]);
        user.parameter = codes.product();
    }
    for edge in &mut base.hierarchy {
        edge.senior += before;
        edge.junior += before;
    }
    for policy in &mut base.policies {
        policy.role += before;
    }
    let conditions = base
        .group_clauses
        .iter_mut()
        .flat_map(|c| &mut c.conditions);
    for condition in conditions.filter(|condition| condition.0 == 3) {
        condition.2 <<= before;
    }
    base
}

/// Expects these smallest numbers at minute 600, and the same with more roles
/// before or behind, up to eight.
pub fn expect_with_more_roles(base: &BaseBuilder, numbers: &[u8]) {
    expect_numbers(base, numbers);
    for more in 1..=8 - base.roles {
        for before in [0, more / 2, more] {
            let bytes = with_roles(base, before, more - before).bytes();
            expect_report(&bytes, at_minute(600), RECORD * numbers.len(), numbers);
        }
    }
}

/// A base of one permission, and the number that is expected of it with more
/// roles too.
pub fn expect_one(weights: &[u8], users: &[&[u8]], clauses: &[&[GroupCondition]], k: u8) {
    let users = users.iter().map(|roles| user(roles)).collect();
    expect_with_more_roles(&base_of(weights, users, clauses), &[k]);
}
