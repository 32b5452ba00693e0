//! Bases that the edges start from, and how to ask about them.

use compare::builder::*;
use compare::questions::{at_minute, Asked};
use compare::shop::small_shop;
use compare::{expect_decision, sums_that_tell};

/// A user who holds all of so many roles.
pub fn all_roles(roles: u8) -> User {
    User::always(CODES[..usize::from(roles)].iter().product())
}

/// A clause of permission 0 that each group passes.
pub fn any_group_passes() -> GroupClause {
    GroupClause::new(0, &[(0, 2, 1)])
}

/// Seven users who hold every role. Each role has weight 1, no role is senior
/// and each group passes the condition.
pub fn open_base(roles: u8) -> BaseBuilder {
    let policy = |role| Policy::new(role, 0, 1, 0, NO_CONTEXT);
    BaseBuilder {
        users: vec![all_roles(roles); 7],
        group_clauses: vec![any_group_passes()],
        policies: (0..roles).map(policy).collect(),
        ..BaseBuilder::new(roles).with_permissions(1)
    }
}

/// Expects this answer for permission 0 at minute 600.
pub fn expect(base: &BaseBuilder, entries: &[[u8; 2]], answer: u8) {
    expect_at(600, base, entries, answer);
}

/// Expects this answer for permission 0 at a minute.
pub fn expect_at(minute: u32, base: &BaseBuilder, entries: &[[u8; 2]], answer: u8) {
    let asked = Asked::new(0, at_minute(minute), entries);
    expect_decision(&base.bytes(), &asked, answer);
}

/// The small shop's users in the roles they hold. At minute 600 the roles
/// weigh 5, 2 and 1, at minute 480 they weigh 4, 1 and 0.
pub const MANAGER: [u8; 2] = [0, 0];
pub const BUYER: [u8; 2] = [1, 1];
pub const CLERK: [u8; 2] = [2, 2];
pub const OTHER_CLERK: [u8; 2] = [3, 2];

/// The small shop with these clauses for its permission.
pub fn shop_with_clauses(clauses: &[&[GroupCondition]]) -> BaseBuilder {
    let clauses = clauses.iter();
    BaseBuilder {
        group_clauses: clauses.map(|c| GroupClause::new(0, c)).collect(),
        ..small_shop()
    }
}

/// Expects these weights of the roles for permission 0 at a minute, as the
/// decision shows them: one user alone, who holds every role, is granted if
/// the sum has to be the weight, and isn't if it has to be one more or less.
pub fn expect_weights(minute: u32, base: &BaseBuilder, weights: &[u8]) {
    assert_eq!(weights.len(), usize::from(base.roles));
    let mut base = base.clone();
    base.users = vec![all_roles(base.roles)];
    for (role, &weight) in (0..).zip(weights) {
        for (sum, answer) in sums_that_tell(weight) {
            base.group_clauses = vec![GroupClause::new(0, &[(1, 4, sum)])];
            expect_at(minute, &base, &[[0, role]], answer);
        }
    }
}
