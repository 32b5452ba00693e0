//! Random bases that pass the check.

use crate::builder::*;
use crate::days::give_days;
use crate::random::Random;

/// How many records the tables of a random base get.
#[derive(Clone, Copy)]
pub enum Size {
    /// None.
    Empty,
    /// Up to three a table.
    Small,
    /// Up to the limits.
    Any,
    /// All that the limits allow: 2,460 bytes.
    Full,
}

impl Size {
    fn count(self, random: &mut Random, limit: usize) -> usize {
        match self {
            Size::Empty => 0,
            Size::Small => random.below(4),
            Size::Any => random.below(limit + 1),
            Size::Full => limit,
        }
    }
}

/// A random base of this size that passes the check. Tables whose records
/// need roles or permissions that aren't there stay empty.
pub fn random_base(random: &mut Random, size: Size) -> BaseBuilder {
    let fewest_roles = if let Size::Full = size { 2 } else { 1 };
    let roles = random.between(fewest_roles, 8);
    let counts = LIMITS.map(|limit| size.count(random, limit));
    let permissions = counts[2] as u8;
    let mut base = BaseBuilder::new(roles);
    base.users = times(counts[1], || random_user(random, roles));
    give_days(random, &mut base.users);
    base.permissions = times(counts[2], || random_permission(random));
    base.context_clauses = times(counts[4], || random_context_clause(random));
    if roles > 1 {
        base.hierarchy = times(counts[0], || random_edge(random, roles));
    }
    if permissions > 0 {
        base.group_clauses = times(counts[3], || {
            random_group_clause(random, roles, permissions)
        });
        base.policies = times(counts[5], || random_policy(random, roles, permissions));
    }
    if roles > 1 || permissions > 1 {
        base.exclusions = times(counts[6], || random_exclusion(random, roles, permissions));
    }
    base
}

pub(crate) fn times<T>(count: usize, make: impl FnMut() -> T) -> Vec<T> {
    std::iter::repeat_with(make).take(count).collect()
}

pub(crate) fn random_edge(random: &mut Random, roles: u8) -> Edge {
    let (senior, junior) = rising_pair(random, roles);
    Edge::new(senior, junior)
}

/// Two different numbers below the end, the smaller first.
pub(crate) fn rising_pair(random: &mut Random, end: u8) -> (u8, u8) {
    let larger = random.between(1, end - 1);
    (random.between(0, larger - 1), larger)
}

fn random_user(random: &mut Random, roles: u8) -> User {
    let codes = CODES[..usize::from(roles)].iter();
    let parameter = codes.filter(|_| random.chance(2)).product();
    User::always(parameter)
}

pub(crate) fn random_permission(random: &mut Random) -> Permission {
    Permission {
        operation: random.byte(),
        object: random.byte(),
    }
}

fn random_group_clause(random: &mut Random, roles: u8, permissions: u8) -> GroupClause {
    let count = 1 + random.below(4);
    let conditions = times(count, || random_group_condition(random, roles));
    GroupClause::new(random.between(0, permissions - 1), &conditions)
}

fn random_group_condition(random: &mut Random, roles: u8) -> GroupCondition {
    match random.between(0, 3) {
        3 => (3, 6, random.byte() >> (8 - roles)),
        attribute => (attribute, random.between(0, 5), random.byte()),
    }
}

fn random_context_clause(random: &mut Random) -> ContextClause {
    let count = 1 + random.below(3);
    let conditions = times(count, || random_context_condition(random));
    ContextClause::new(random.between(0, 15), &conditions)
}

fn random_context_condition(random: &mut Random) -> ContextCondition {
    let (parameter, last) = random.pick(&[(0, 1439), (1, 6), (2, 255)]);
    let inside = random.below(usize::from(last) + 1) as u16;
    let value = random.pick(&[0, inside, inside, last]);
    (parameter, random.between(0, 5), value)
}

fn random_policy(random: &mut Random, roles: u8, permissions: u8) -> Policy {
    let some_context = random.between(0, 15);
    Policy {
        role: random.between(0, roles - 1),
        permission: random.between(0, permissions - 1),
        weight: random.between(1, 5),
        inheritable: random.between(0, 1),
        context: random.pick(&[some_context, NO_CONTEXT]),
        rank: random.byte(),
        issue_day: u16::from_le_bytes([random.byte(), random.byte()]),
    }
}

pub(crate) fn random_exclusion(random: &mut Random, roles: u8, permissions: u8) -> Exclusion {
    let of_roles = permissions < 2 || (roles > 1 && random.chance(2));
    let (kind, end) = if of_roles {
        (0, roles)
    } else {
        (1, permissions)
    };
    let (a, b) = rising_pair(random, end);
    Exclusion { kind, a, b }
}
