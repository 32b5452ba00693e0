//! Groups of users who act below the roles that they hold.

use crate::setups::*;
use compare::builder::*;
use compare::shop::small_shop;

/// The base with these H records: senior, junior.
fn ranked(mut base: BaseBuilder, pairs: &[(u8, u8)]) -> BaseBuilder {
    base.hierarchy = edges(pairs);
    base
}

/// 0 over 1 over 2 over .. over 7.
const CHAIN: [(u8, u8); 7] = [(0, 1), (1, 2), (2, 3), (3, 4), (4, 5), (5, 6), (6, 7)];

/// Expects no group by holding alone, and this only group with the H records.
fn expect_only_by_acting(base: &BaseBuilder, pairs: &[(u8, u8)], group: &[[u8; 2]]) {
    expect_numbers(base, &[0]);
    expect_only_group(&ranked(base.clone(), pairs), group);
}

/// One user, who holds role 0. Without H records nobody can release.
#[test]
fn a_group_only_through_acting_below() {
    for role in 1..8 {
        let needed: &[GroupCondition] = &[(3, 6, 1 << role)];
        let base = base_of(&[1; 8], users(&[&[0]]), &[needed]);
        expect_only_by_acting(&base, &CHAIN, &[[0, role]]);
        expect_only_by_acting(&base, &[(0, role)], &[[0, role]]);
        for missing in 0..role {
            let mut chain = CHAIN.to_vec();
            chain.remove(missing.into());
            expect_numbers(&ranked(base.clone(), &chain), &[0]);
        }
    }
}

/// Who holds role 1 doesn't act in role 0.
#[test]
fn nobody_acts_above() {
    let needed: &[GroupCondition] = &[(3, 6, 0b01)];
    let base = base_of(&[1, 1], users(&[&[1], &[1]]), &[needed]);
    expect_with_more_roles(&ranked(base, &[(0, 1)]), &[0]);
    let base = base_of(&[1, 1], users(&[&[1], &[0]]), &[needed]);
    expect_only_group(&ranked(base, &[(0, 1)]), &[[1, 0]]);
}

/// Both roles are needed, and nobody stands in two entries.
#[test]
fn who_acts_below_leaves_the_senior_role_to_another() {
    let both: &[GroupCondition] = &[(3, 6, 0b11)];
    let base = |roles: &[&[u8]]| base_of(&[1, 1], users(roles), &[both]);
    expect_only_group(&ranked(base(&[&[0], &[1]]), &[(0, 1)]), &[[0, 0], [1, 1]]);
    expect_only_group(&ranked(base(&[&[1], &[0]]), &[(0, 1)]), &[[0, 1], [1, 0]]);
    let two_seniors = base(&[&[0], &[0]]);
    expect_numbers(&two_seniors, &[0]);
    expect_with_more_roles(&ranked(two_seniors, &[(0, 1)]), &[2]);
    expect_with_more_roles(&ranked(base(&[&[0]]), &[(0, 1)]), &[0]);
    expect_with_more_roles(&ranked(base(&[&[1], &[1]]), &[(0, 1)]), &[0]);
}

/// Six who hold role 0 act in six of the roles below it.
#[test]
fn six_act_in_six_roles_below() {
    let six: &[GroupCondition] = &[(3, 6, 0b1111_1100)];
    for (count, k) in [(5, 0), (6, 6), (7, 6)] {
        let base = base_of(&[1; 8], vec![user(&[0]); count], &[six]);
        expect_numbers(&base, &[0]);
        expect_numbers(&ranked(base, &CHAIN), &[k]);
    }
    let each = (0..6).map(|role| user(&[role])).collect();
    let base = base_of(&[1; 8], each, &[six]);
    let below = [(0, 6), (1, 7)];
    expect_only_group(
        &ranked(base, &below),
        &[[0, 6], [1, 7], [2, 2], [3, 3], [4, 4], [5, 5]],
    );
}

/// With the senior's bit, or those of the roles between, one entry would do for
/// two roles.
#[test]
fn the_set_has_the_roles_acted_in_alone() {
    let mut base = ranked(base_of(&[1; 8], users(&[&[0], &[0]]), &[]), &CHAIN);
    for (condition, k) in [
        ((3, 6, 0b1000_0000), 1),
        ((3, 6, 0b1000_0001), 2),
        ((3, 6, 0b1100_0000), 2),
        ((3, 6, 0b1100_0001), 0),
        ((2, 4, 1), 1),
        ((2, 4, 2), 2),
        ((2, 4, 3), 0),
    ] {
        base.group_clauses = vec![GroupClause::new(0, &[condition])];
        expect_numbers(&base, &[k]);
    }
}

/// Role 0 weighs 5 and role 1 weighs 2.
#[test]
fn the_weight_is_that_of_the_role_acted_in() {
    let base = |count, conditions: &[GroupCondition]| {
        let base = base_of(&[5, 2], vec![user(&[0]); count], &[conditions]);
        ranked(base, &[(0, 1)])
    };
    expect_only_group(&base(1, &[(1, 4, 2)]), &[[0, 1]]);
    expect_only_group(&base(1, &[(1, 4, 5)]), &[[0, 0]]);
    expect_only_group(&base(2, &[(1, 4, 4)]), &[[0, 1], [1, 1]]);
    for (sum, k) in [(1, 0), (3, 0), (6, 3), (7, 2), (8, 4), (9, 3), (10, 2)] {
        expect_with_more_roles(&base(4, &[(1, 4, sum)]), &[k]);
    }
    expect_with_more_roles(&base(2, &[(3, 6, 0b10), (1, 2, 8)]), &[0]);
}

/// The senior has weight, the junior none.
#[test]
fn a_role_without_weight_is_not_acted_in_from_above() {
    let needed: &[GroupCondition] = &[(3, 6, 0b10)];
    let base = base_of(&[5, 0], vec![user(&[0]); 6], &[needed]);
    expect_with_more_roles(&ranked(base, &[(0, 1)]), &[0]);
    let any: &[GroupCondition] = &[(0, 2, 1)];
    let base = base_of(&[0, 5], users(&[&[0]]), &[any]);
    expect_only_by_acting(&base, &[(0, 1)], &[[0, 1]]);
}

/// 0 over 1 and 2, both over 3.
#[test]
fn two_chains_to_one_role() {
    let needed: &[GroupCondition] = &[(3, 6, 0b1000)];
    let base = base_of(&[1; 4], users(&[&[0]]), &[needed]);
    let diamond = [(0, 1), (0, 2), (1, 3), (2, 3)];
    expect_only_by_acting(&base, &diamond, &[[0, 3]]);
    for missing in 0..4 {
        let mut chains = diamond.to_vec();
        chains.remove(missing);
        expect_only_by_acting(&base, &chains, &[[0, 3]]);
    }
    expect_with_more_roles(&ranked(base, &[(0, 1), (2, 3)]), &[0]);
}

/// The roles weigh 5, 2 and 1, also without H records: then the buyer and both
/// clerks have 4.
#[test]
fn fewer_suffice_in_the_small_shop() {
    let mut shop = small_shop();
    shop.group_clauses = vec![GroupClause::new(0, &[(1, 4, 4)])];
    expect_only_group(&shop, &[[0, 1], [1, 1]]);
    shop.hierarchy.clear();
    (shop.policies[0].weight, shop.policies[1].weight) = (5, 2);
    expect_only_group(&shop, &[[1, 1], [2, 2], [3, 2]]);
}

/// Three of four act as clerks, or all.
#[test]
fn clerks_of_the_small_shop() {
    let mut shop = small_shop();
    for (entries, k) in [(1, 1), (2, 2), (3, 3), (4, 4), (5, 0)] {
        shop.group_clauses = vec![GroupClause::new(
            0,
            &[(0, 4, entries), (3, 6, 4), (2, 4, 1)],
        )];
        expect_numbers(&shop, &[k]);
        expect_numbers_at(480, &shop, &[0]);
    }
    shop.group_clauses = vec![GroupClause::new(0, &[(0, 4, 4), (2, 4, 1)])];
    expect_only_group(&shop, &[[0, 2], [1, 2], [2, 2], [3, 2]]);
}

#[test]
fn users_without_roles_act_in_none() {
    let any: &[GroupCondition] = &[(0, 2, 1)];
    let mut late = vec![user(&[]); 24];
    expect_numbers(
        &ranked(base_of(&[1; 8], late.clone(), &[any]), &CHAIN),
        &[0],
    );
    late[23] = user(&[6]);
    let needed: &[GroupCondition] = &[(3, 6, 0b1000_0000)];
    let base = base_of(&[1; 8], late, &[needed]);
    expect_only_by_acting(&base, &CHAIN, &[[23, 7]]);
}

/// The first permission needs role 1, the second role 2, the third role 0.
#[test]
fn each_permission_has_its_own_group() {
    let mut base = ranked(base_of(&[], users(&[&[1]]), &[]), &[(0, 1), (1, 2)]);
    base.roles = 3;
    base.permissions = BaseBuilder::new(1).with_permissions(3).permissions;
    for (permission, role) in [(0, 1), (1, 2), (2, 0)] {
        let clause = GroupClause::new(permission, &[(3, 6, 1 << role)]);
        base.group_clauses.push(clause);
        let policies = (0..3).map(|role| Policy::new(role, permission, 1, 0, NO_CONTEXT));
        base.policies.extend(policies);
    }
    expect_with_more_roles(&base, &[1, 1, 0]);
    base.users = users(&[&[2]]);
    expect_with_more_roles(&base, &[0, 1, 0]);
    base.users = users(&[&[0]]);
    expect_with_more_roles(&base, &[1, 1, 1]);
}
