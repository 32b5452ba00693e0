//! Kind 3 through the hierarchy: who may act in both roles of an exclusion stands
//! in the list, whether the user holds them or a role that is senior to them.

use crate::setups::*;
use compare::builder::*;

/// 0 over 1 and 2, both over 3.
const DIAMOND: [(u8, u8); 4] = [(0, 1), (0, 2), (1, 3), (2, 3)];

/// Eight roles with these H records, users with these parameters, and an exclusion
/// of each two roles.
fn excluding_all(pairs: &[(u8, u8)], parameters: &[u32]) -> BaseBuilder {
    BaseBuilder {
        hierarchy: edges(pairs),
        users: users(parameters),
        exclusions: role_exclusions(&each_two()),
        ..BaseBuilder::new(8)
    }
}

/// Expects each user to act in these roles alone: the user stands for each two of
/// them, and for no others.
fn expect_acts_in(base: &BaseBuilder, roles: &[&[u8]]) {
    assert_eq!(base.users.len(), roles.len());
    let mut list = Vec::new();
    for (user, roles) in (0..).zip(roles) {
        for (record, (a, b)) in (0..).zip(each_two()) {
            if roles.contains(&a) && roles.contains(&b) {
                list.push([3, user, record]);
            }
        }
    }
    expect_list(base, &list);
}

/// The same with an exclusion of these two roles alone.
fn excluding(pairs: &[(u8, u8)], parameters: &[u32], excluded: (u8, u8)) -> BaseBuilder {
    BaseBuilder {
        exclusions: role_exclusions(&[excluded]),
        ..excluding_all(pairs, parameters)
    }
}

/// Expects these users to stand for record 0, and no others.
fn expect_stand(base: &BaseBuilder, users: &[u8]) {
    let list: Vec<[u8; 3]> = users.iter().map(|&user| [3, user, 0]).collect();
    expect_list(base, &list);
}

/// User r holds role r alone and acts in r and in all behind it.
const DOWN_THE_CHAIN: [&[u8]; 8] = [
    &[0, 1, 2, 3, 4, 5, 6, 7],
    &[1, 2, 3, 4, 5, 6, 7],
    &[2, 3, 4, 5, 6, 7],
    &[3, 4, 5, 6, 7],
    &[4, 5, 6, 7],
    &[5, 6, 7],
    &[6, 7],
    &[7],
];

#[test]
fn who_can_act_in_both_roles_but_holds_one_conflicts() {
    expect_acts_in(&excluding_all(&CHAIN, &CODES), &DOWN_THE_CHAIN);
}

/// Record 20 is of roles 5 and 6, 26 of 5 and 7, 27 of 6 and 7. The user who holds
/// role 7 stands for none.
#[test]
fn the_last_three_roles_of_the_chain() {
    let base = excluding_all(&CHAIN, &[17, 19, 23]);
    let list = [[3, 0, 20], [3, 0, 26], [3, 0, 27], [3, 1, 27]];
    expect_list(&base, &list);
}

/// User 0 holds role 0, user 1 roles 0 and 2, user 2 roles 0 and 7; user 3 holds 5
/// and 6, user 4 role 7.
#[test]
fn who_holds_two_acts_in_all_behind_the_first() {
    let base = excluding_all(&CHAIN, &[3, 21, 69, 17 * 19, 23]);
    let all = &[0, 1, 2, 3, 4, 5, 6, 7];
    expect_acts_in(&base, &[all, all, all, &[5, 6, 7], &[7]]);
}

/// Record 1 is of roles 0 and 2, 21 of 0 and 7, 20 of 5 and 6.
#[test]
fn without_h_records_the_list_is_that_of_the_parameters() {
    let base = excluding_all(&[], &[3, 21, 69, 17 * 19, 23]);
    expect_list(&base, &[[3, 1, 1], [3, 2, 21], [3, 3, 20]]);
    expect_list(&excluding_all(&[], &CODES), &[]);
}

#[test]
fn a_chain_of_seven_records_in_any_order() {
    let mut chain = CHAIN;
    chain.reverse();
    expect_acts_in(&excluding_all(&chain, &CODES), &DOWN_THE_CHAIN);
    chain.swap(0, 3);
    chain.swap(2, 6);
    expect_acts_in(&excluding_all(&chain, &CODES), &DOWN_THE_CHAIN);
}

/// Without the record from role m to the next there are two chains, 0 to m and
/// m + 1 to 7: who holds a role acts in it and up to its chain's end.
#[test]
fn a_chain_with_a_record_missing_is_two() {
    for missing in 0..7 {
        let mut chain = CHAIN.to_vec();
        chain.remove(missing.into());
        let end = |held| if held <= missing { missing } else { 7 };
        let roles: Vec<Vec<u8>> = (0..8).map(|held| (held..=end(held)).collect()).collect();
        let roles: Vec<&[u8]> = roles.iter().map(Vec::as_slice).collect();
        expect_acts_in(&excluding_all(&chain, &CODES), &roles);
        chain.reverse();
        expect_acts_in(&excluding_all(&chain, &CODES), &roles);
    }
}

/// Two chains lead from role 0 to role 3, and user 0 stands once for a record.
/// Record 4 is of roles 1 and 3, 5 of 2 and 3.
#[test]
fn a_diamond() {
    let of_user_0 = [0, 1, 2, 3, 4, 5].map(|record| [3, 0, record]);
    let list = [&of_user_0[..], &[[3, 1, 4], [3, 2, 5]]].concat();
    expect_list(&excluding_all(&DIAMOND, &[3, 5, 7, 11]), &list);
}

#[test]
fn a_diamond_with_a_record_missing() {
    for (missing, roles) in [
        (0, [&[0, 2, 3][..], &[1, 3], &[2, 3], &[3]]),
        (1, [&[0, 1, 3], &[1, 3], &[2, 3], &[3]]),
        (2, [&[0, 1, 2, 3], &[1], &[2, 3], &[3]]),
        (3, [&[0, 1, 2, 3], &[1, 3], &[2], &[3]]),
    ] {
        let mut chains = DIAMOND.to_vec();
        chains.remove(missing);
        expect_acts_in(&excluding_all(&chains, &[3, 5, 7, 11]), &roles);
    }
}

#[test]
fn a_record_beside_a_chain_and_repeated_records() {
    let beside = [(0, 1), (1, 2), (0, 2), (0, 1), (1, 2)];
    let base = excluding_all(&beside, &[3, 5, 7]);
    expect_acts_in(&base, &[&[0, 1, 2], &[1, 2], &[2]]);
    let base = excluding_all(&[(1, 6); 28], &[3, 5, 19]);
    expect_acts_in(&base, &[&[0], &[1, 6], &[6]]);
}

/// 2 over 4 over 6; users 0 to 3 hold role 2, role 6, both and role 4.
#[test]
fn a_role_and_a_junior_down_a_chain() {
    let (pairs, users) = ([(2, 4), (4, 6)], [7, 19, 7 * 19, 13]);
    expect_stand(&excluding(&pairs, &users, (2, 6)), &[0, 2]);
    expect_stand(&excluding(&pairs, &users, (2, 4)), &[0, 2]);
    expect_stand(&excluding(&pairs, &users, (4, 6)), &[0, 2, 3]);
}

/// User r holds role r alone. 0 over 1 and 2; then 0 over 1, which is over 2 and 3.
#[test]
fn one_role_held_with_both_roles_below_it() {
    let fork = [(0, 1), (0, 2)];
    expect_stand(&excluding(&fork, &[3, 5, 7], (1, 2)), &[0]);
    let deeper = [(0, 1), (1, 2), (1, 3)];
    expect_stand(&excluding(&deeper, &[3, 5, 7, 11], (2, 3)), &[0, 1]);
}

/// Who holds role 0 or 1 alone acts in one of the two; users 2 and 4, who hold
/// both, act in each through another one.
#[test]
fn two_roles_held_that_reach_one_side_each() {
    let users = [3, 5, 15, 3, 15 * 13];
    expect_stand(&excluding(&[(0, 2), (1, 3)], &users, (2, 3)), &[2, 4]);
    expect_stand(&excluding(&[(0, 3), (1, 2)], &users, (2, 3)), &[2, 4]);
    let longer = [(0, 2), (2, 6), (1, 3), (3, 7)];
    expect_stand(&excluding(&longer, &users, (6, 7)), &[2, 4]);
}

/// User 0 holds the exclusion's first role, 1, and role 0, which is over the
/// second. User 1 holds role 1 alone, user 2 role 0 alone.
#[test]
fn the_first_role_held_and_the_second_acted_in() {
    let users = [15, 5, 3];
    expect_stand(&excluding(&[(0, 2)], &users, (1, 2)), &[0]);
    expect_stand(&excluding(&[(0, 3), (3, 6)], &users, (1, 6)), &[0]);
}

/// User 0 holds the exclusion's second role, 7, and role 0, which is over the
/// first. User 1 holds role 7 alone, user 2 role 0 alone.
#[test]
fn the_second_role_held_and_the_first_acted_in() {
    let users = [69, 23, 3];
    expect_stand(&excluding(&[(0, 2)], &users, (2, 7)), &[0]);
    expect_stand(&excluding(&[(0, 3), (3, 6)], &users, (6, 7)), &[0]);
}

/// User 0 holds all roles but 0, user 1 roles 1 to 6, user 2 role 7. None of them acts
/// in role 0, nor does user 2 in role 6.
#[test]
fn nobody_acts_upward() {
    let of = |codes: &[u32]| codes.iter().product();
    let users = [of(&CODES[1..]), of(&CODES[1..7]), CODES[7]];
    for b in 1..8 {
        expect_stand(&excluding(&CHAIN, &users, (0, b)), &[]);
    }
    expect_stand(&excluding(&CHAIN, &users, (6, 7)), &[0, 1]);
}

/// 0 and 1 over 2: who holds 2 acts in neither of the two, nor does a holder of one
/// act in the other.
#[test]
fn two_seniors_of_a_role_held() {
    let pairs = [(0, 2), (1, 2)];
    expect_stand(&excluding(&pairs, &[7, 3, 5, 15], (0, 1)), &[3]);
    expect_stand(&excluding(&pairs, &[7, 3, 5, 15], (0, 2)), &[1, 3]);
    expect_stand(&excluding(&pairs, &[7, 3, 5, 15], (1, 2)), &[2, 3]);
}

/// 0 over 1, 2 and 3.
#[test]
fn roles_of_one_senior_do_not_open_each_other() {
    let base = excluding_all(&[(0, 1), (0, 2), (0, 3)], &[3, 5, 7, 11, 35]);
    let roles: [&[u8]; 5] = [&[0, 1, 2, 3], &[1], &[2], &[3], &[1, 2]];
    expect_acts_in(&base, &roles);
}

#[test]
fn users_without_roles_stand_for_none() {
    expect_list(&excluding_all(&CHAIN, &[1; 24]), &[]);
    expect_stand(&excluding(&CHAIN, &[1, 3, 1], (6, 7)), &[1]);
}

/// Eight policies of as many roles, so that no two of them conflict: at first under
/// no context, then under one that never holds.
#[test]
fn policies_play_no_part() {
    let mut base = excluding_all(&CHAIN, &CODES).with_permissions(1);
    base.policies = (0..8).map(|role| policy(role, 0, 1, 0)).collect();
    expect_acts_in(&base, &DOWN_THE_CHAIN);
    for policy in &mut base.policies {
        policy.context = 9;
    }
    expect_acts_in(&base, &DOWN_THE_CHAIN);
    base.policies.truncate(1);
    expect_acts_in(&base, &DOWN_THE_CHAIN);
}
