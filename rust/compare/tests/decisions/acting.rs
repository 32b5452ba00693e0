//! Refusal 15: a user acts in roles held and in their juniors. The role acted in
//! counts, in the set and by its weight.

use crate::setups::*;
use compare::builder::*;
use compare::shop::small_shop;

/// Open to all, with these H records: user r holds role r alone.
fn ranked(pairs: &[(u8, u8)]) -> BaseBuilder {
    let mut base = open_base(8);
    base.hierarchy = edges(pairs);
    base.users = CODES.map(User::always).to_vec();
    base
}

/// 0 over 1 over 2 over .. over 7.
const CHAIN: [(u8, u8); 7] = [(0, 1), (1, 2), (2, 3), (3, 4), (4, 5), (5, 6), (6, 7)];

/// Expects a user to act in these roles and to get 15 in the others.
fn expect_acts_in(base: &BaseBuilder, user: u8, roles: &[u8]) {
    for role in 0..base.roles {
        let answer = if roles.contains(&role) { 0 } else { 15 };
        expect(base, &[[user, role]], answer);
    }
}

#[test]
fn down_a_chain_of_seven_records() {
    expect(&ranked(&CHAIN), &[[0, 7]], 0);
    expect(&ranked(&CHAIN), &[[1, 7], [0, 7]], 0);
    expect(&ranked(&CHAIN[1..]), &[[0, 7]], 15);
    expect(&ranked(&CHAIN[..6]), &[[0, 7]], 15);
}

#[test]
fn down_the_chain_and_not_up() {
    for user in 0..8 {
        let roles: Vec<u8> = (user..8).collect();
        expect_acts_in(&ranked(&CHAIN), user, &roles);
    }
}

#[test]
fn the_records_may_stand_in_any_order() {
    let mut chain = CHAIN;
    chain.reverse();
    expect(&ranked(&chain), &[[0, 7]], 0);
    chain.swap(0, 3);
    chain.swap(2, 6);
    expect(&ranked(&chain), &[[0, 7]], 0);
    expect(&ranked(&chain), &[[7, 0]], 15);
}

#[test]
fn every_record_of_the_chain_counts() {
    for missing in 0..7 {
        let mut chain = CHAIN.to_vec();
        chain.remove(missing.into());
        let roles: Vec<u8> = (0..=missing).collect();
        expect_acts_in(&ranked(&chain), 0, &roles);
        let roles: Vec<u8> = (missing + 1..8).collect();
        expect_acts_in(&ranked(&chain), missing + 1, &roles);
    }
}

#[test]
fn without_records_a_role_held_is_the_only_one() {
    for user in 0..8 {
        expect_acts_in(&ranked(&[]), user, &[user]);
    }
}

/// 0 over 1 and 2, both over 3.
#[test]
fn two_chains_to_one_role() {
    let diamond = [(0, 1), (0, 2), (1, 3), (2, 3)];
    expect_acts_in(&ranked(&diamond), 0, &[0, 1, 2, 3]);
    expect_acts_in(&ranked(&diamond), 1, &[1, 3]);
    expect_acts_in(&ranked(&diamond), 2, &[2, 3]);
    expect_acts_in(&ranked(&diamond), 3, &[3]);
    for missing in 0..4 {
        let mut chains = diamond.to_vec();
        chains.remove(missing);
        expect(&ranked(&chains), &[[0, 3]], 0);
    }
    expect(&ranked(&[(0, 1), (2, 3)]), &[[0, 3]], 15);
}

#[test]
fn a_record_beside_a_chain_and_repeated_records() {
    let beside = [(0, 1), (1, 2), (0, 2), (0, 1), (1, 2)];
    expect_acts_in(&ranked(&beside), 0, &[0, 1, 2]);
    expect_acts_in(&ranked(&[(1, 6); 28]), 1, &[1, 6]);
    expect_acts_in(&ranked(&[(1, 6); 28]), 6, &[6]);
}

/// 0 over 1, 2 and 3.
#[test]
fn roles_of_one_senior_do_not_open_each_other() {
    let fork = [(0, 1), (0, 2), (0, 3)];
    expect_acts_in(&ranked(&fork), 0, &[0, 1, 2, 3]);
    for user in 1..4 {
        expect_acts_in(&ranked(&fork), user, &[user]);
    }
}

/// 2 over 3, 5 over 6 over 7; the user holds 2 and 5.
#[test]
fn each_role_held_opens_its_juniors() {
    let mut base = ranked(&[(2, 3), (5, 6), (6, 7)]);
    base.users[0].parameter = 7 * 17;
    expect_acts_in(&base, 0, &[2, 3, 5, 6, 7]);
    base.users[0].parameter = 11 * 19;
    expect_acts_in(&base, 0, &[3, 6, 7]);
}

#[test]
fn a_user_with_parameter_1_acts_in_no_role() {
    let mut base = ranked(&CHAIN);
    base.users[0].parameter = 1;
    expect_acts_in(&base, 0, &[]);
    for role in 0..8 {
        expect(&base, &[[1, 7], [0, role]], 15);
    }
}

/// Nobody but user 0, who holds role 0, is there.
#[test]
fn a_role_that_nobody_holds_is_acted_in() {
    let mut base = ranked(&CHAIN);
    base.users.truncate(1);
    expect_acts_in(&base, 0, &[0, 1, 2, 3, 4, 5, 6, 7]);
}

#[test]
fn the_small_shops_users_act_in_their_roles_and_below() {
    let open = shop_with_clauses(&[&[(0, 2, 1)]]);
    for (user, roles) in [(0, &[0, 1, 2][..]), (1, &[1, 2]), (2, &[2]), (3, &[2])] {
        expect_acts_in(&open, user, roles);
    }
}

/// Manager as buyer 2, buyer 2, clerk 1; the condition asks for 5.
#[test]
fn the_manager_signs_as_a_buyer() {
    expect(&small_shop(), &[[0, 1], BUYER, CLERK], 0);
    expect(&small_shop(), &[[0, 1], BUYER], 17);
    expect(&small_shop(), &[[0, 1], CLERK, OTHER_CLERK], 17);
    expect(&small_shop(), &[[0, 2], BUYER, CLERK], 17);
    expect(&small_shop(), &[[0, 2], BUYER, CLERK, OTHER_CLERK], 0);
    expect(&small_shop(), &[MANAGER, [1, 2]], 0);
}

#[test]
fn a_junior_as_its_senior_is_refused_beside_others() {
    for as_senior in [[1, 0], [2, 0], [2, 1], [3, 0], [3, 1]] {
        expect(&small_shop(), &[as_senior], 15);
        expect(&small_shop(), &[MANAGER, as_senior], 15);
        expect(&small_shop(), &[as_senior, [0, 2]], 15);
    }
}

/// The user may act in each of the roles, but stands twice.
#[test]
fn a_user_in_a_role_held_and_in_a_junior_is_refused() {
    for [one, other] in [[0, 1], [0, 2], [1, 0], [1, 2], [2, 1], [2, 2]] {
        expect(&small_shop(), &[[0, one], [0, other]], 14);
        expect(&small_shop(), &[[0, one], CLERK, [0, other]], 14);
    }
    expect(&small_shop(), &[[1, 2], BUYER], 14);
}

/// Of one entry in a role below the one held.
#[test]
fn the_set_has_not_the_seniors_bit() {
    for (acted_in, senior) in [([0, 1], 0b001), ([0, 2], 0b001), ([1, 2], 0b010)] {
        let bit = 1 << acted_in[1];
        let expect_set = |bits, answer| {
            let shop = shop_with_clauses(&[&[(3, 6, bits)]]);
            expect(&shop, &[acted_in], answer);
        };
        expect_set(bit, 0);
        expect_set(senior, 17);
        expect_set(bit | senior, 17);
    }
    let shop = shop_with_clauses(&[&[(3, 6, 0b011)]]);
    expect(&shop, &[[0, 1], BUYER], 17);
    expect(&shop, &[MANAGER, BUYER], 0);
}

/// Nor has it the bits of the roles between.
#[test]
fn the_set_has_one_bit_down_a_chain() {
    for role in 0..8 {
        let mut base = ranked(&CHAIN);
        base.group_clauses = vec![GroupClause::new(0, &[(3, 6, 1 << role)])];
        expect(&base, &[[0, 7]], if role == 7 { 0 } else { 17 });
    }
}

#[test]
fn the_role_acted_in_is_one_role() {
    let different = |count| shop_with_clauses(&[&[(2, 4, count)]]);
    expect(&different(1), &[[0, 1]], 0);
    expect(&different(2), &[[0, 1]], 17);
    expect(&different(1), &[[0, 2], [1, 2], CLERK, OTHER_CLERK], 0);
    expect(&different(2), &[[0, 2], BUYER, CLERK], 0);
    expect(&different(3), &[[0, 2], BUYER, CLERK], 17);
    expect(&different(1), &[[0, 1], BUYER], 0);
}

/// 5, 2 and 1, each by the manager alone.
#[test]
fn the_weight_is_that_of_the_role_acted_in() {
    for (role, weight) in [(0, 5), (1, 2), (2, 1)] {
        for sum in 0..=8 {
            let shop = shop_with_clauses(&[&[(1, 4, sum)]]);
            let answer = if sum == weight { 0 } else { 17 };
            expect(&shop, &[[0, role]], answer);
        }
    }
}

/// Early a clerk weighs 0, the manager 4 and the buyer 1.
#[test]
fn a_role_without_weight_is_refused_though_the_senior_has_weight() {
    for as_clerk in [[0, 2], [1, 2]] {
        expect_at(480, &small_shop(), &[as_clerk], 16);
        expect_at(540, &small_shop(), &[as_clerk], 17);
    }
    expect_at(480, &small_shop(), &[MANAGER, BUYER], 0);
    expect_at(480, &small_shop(), &[MANAGER, [1, 2]], 16);
    expect_at(480, &small_shop(), &[[0, 2], BUYER], 16);
}

/// The senior has no weight, the junior has.
#[test]
fn a_senior_without_weight_acts_as_its_junior() {
    let mut base = ranked(&[(0, 1)]);
    base.policies.remove(0);
    expect(&base, &[[0, 0]], 16);
    expect(&base, &[[0, 1]], 0);
    expect(&base, &[[1, 0]], 15);
}

/// Role 3 isn't there, though codes and sets have room for it.
#[test]
fn a_role_not_below_r_is_13_before_15() {
    expect(&small_shop(), &[[0, 3]], 13);
    expect(&small_shop(), &[[2, 1], [0, 3]], 13);
    expect(&small_shop(), &[[0, 3], [2, 1]], 13);
    let mut base = open_base(7);
    base.hierarchy = edges(&CHAIN[..6]);
    base.users[0].parameter = 3;
    expect(&base, &[[0, 6]], 0);
    for role in [7, 8, 9, 15, 255] {
        expect(&base, &[[0, role]], 13);
    }
}

/// Six who hold role 0 act in six of its juniors.
#[test]
fn six_act_in_six_roles_below() {
    let mut base = ranked(&CHAIN);
    base.users = vec![User::always(3); 6];
    let group = [[0, 2], [1, 3], [2, 4], [3, 5], [4, 6], [5, 7]];
    for (condition, answer) in [
        ((2, 4, 6), 0),
        ((2, 0, 6), 17),
        ((3, 6, 0b1111_1100), 0),
        ((3, 6, 0b0000_0001), 17),
        ((3, 6, 0b0000_0010), 17),
        ((1, 4, 6), 0),
    ] {
        base.group_clauses = vec![GroupClause::new(0, &[condition])];
        expect(&base, &group, answer);
    }
}

/// User 6 holds role 6 alone; the others act down from role 0.
#[test]
fn a_user_who_may_not_act_is_found_at_every_place() {
    let mut base = ranked(&CHAIN);
    base.users = vec![User::always(3); 6];
    base.users.push(User::always(19));
    for place in 0..6 {
        let mut group = [0, 1, 2, 3, 4, 5].map(|user| [user, 7]);
        group[place] = [6, 7];
        expect(&base, &group, 0);
        group[place] = [6, 5];
        expect(&base, &group, 15);
    }
}

/// Exclusions refuse nobody who can act in both roles.
#[test]
fn excluded_roles_are_acted_in_all_the_same() {
    let mut base = ranked(&CHAIN);
    let (kind, a, b) = (0, 0, 7);
    base.exclusions = vec![Exclusion { kind, a, b }];
    expect_acts_in(&base, 0, &[0, 1, 2, 3, 4, 5, 6, 7]);
}
