//! Bases that the edges start from, and what is expected of them.

use compare::bounds::{expect_bound, Changed};
use compare::builder::*;

/// 0 over 1 over 2 over .. over 7.
pub const CHAIN: [(u8, u8); 7] = [(0, 1), (1, 2), (2, 3), (3, 4), (4, 5), (5, 6), (6, 7)];

/// 0 over 1 and 2, both over 3.
pub const DIAMOND: [(u8, u8); 4] = [(0, 1), (0, 2), (1, 3), (2, 3)];

/// The parameter of a user who holds all eight roles.
pub const ALL_ROLES: u32 = 111_546_435;

/// Eight users who hold each of eight roles, with these H records. Policy r is
/// role r's, of weight 1 and type 1, in every context.
pub fn open_base(pairs: &[(u8, u8)]) -> BaseBuilder {
    let parameter = ALL_ROLES;
    BaseBuilder {
        hierarchy: edges(pairs),
        users: vec![User::always(parameter); 8],
        policies: (0..8)
            .map(|role| Policy::new(role, 0, 1, 1, NO_CONTEXT))
            .collect(),
        ..BaseBuilder::new(8).with_permissions(1)
    }
}

/// Users 0, 1, 2 and so on in these roles.
pub fn in_roles(roles: &[u8]) -> Vec<[u8; 2]> {
    (0..).zip(roles).map(|(user, role)| [user, *role]).collect()
}

/// Expects this bound.
pub fn expect(base: &BaseBuilder, policy: u32, weight: u32, entries: &[[u8; 2]], bound: u32) {
    let changed = Changed::new(policy, weight, entries);
    expect_bound(&base.bytes(), &changed, (0, bound));
}

/// Expects this refusal, which carries 0.
pub fn expect_refused(
    base: &BaseBuilder,
    policy: u32,
    weight: u32,
    entries: &[[u8; 2]],
    refusal: u8,
) {
    let changed = Changed::new(policy, weight, entries);
    expect_bound(&base.bytes(), &changed, (refusal, 0));
}

/// Expects policy r, of weight 1, to reach these roles and no other, each by an
/// entry of its own: 4 if its weight becomes 5.
pub fn expect_reached(base: &BaseBuilder, policy: u32, roles: &[u8]) {
    for role in 0..base.roles {
        let bound = if roles.contains(&role) { 4 } else { 0 };
        expect(base, policy, 5, &[[0, role]], bound);
    }
}

/// The small shop's users in the roles they hold. Its policies are the
/// manager's of weight 3, the buyer's of 1 and the clerk's of 1.
pub const MANAGER: [u8; 2] = [0, 0];
pub const BUYER: [u8; 2] = [1, 1];
pub const CLERK: [u8; 2] = [2, 2];
pub const OTHER_CLERK: [u8; 2] = [3, 2];
