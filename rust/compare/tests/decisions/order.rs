//! The order of refusals: with two faults present the earlier one is named,
//! wherever they stand.

use crate::setups::*;
use compare::builder::*;
use compare::expect_decision;
use compare::questions::{at_minute, Asked, SOME_DATE};
use compare::shop::small_shop;

/// Expects this answer of the small shop.
fn expect_shop(permission: u32, minute: u32, group: &[u8], answer: u8) {
    let asked = Asked {
        permission,
        at: at_minute(minute),
        group: group.to_vec(),
    };
    expect_decision(&small_shop().bytes(), &asked, answer);
}

/// Expects this answer of the small shop, early, when the clerk has no
/// weight, and for the group from its end.
fn expect_early(entries: &[[u8; 2]], answer: u8) {
    let reversed: Vec<[u8; 2]> = entries.iter().rev().copied().collect();
    expect_at(480, &small_shop(), entries, answer);
    expect_at(480, &small_shop(), &reversed, answer);
}

const ABSENT_USER: [u8; 2] = [4, 2];
const ABSENT_ROLE: [u8; 2] = [1, 3];
const AS_SENIOR: [u8; 2] = [1, 0];
const NO_WEIGHT: [u8; 2] = [2, 2];

/// With a permission that isn't there, a context out of range and no group.
fn expect_bad_base(base: &[u8], answer: u8) {
    let asked = Asked::new(1, at_minute(1440), &[]);
    expect_decision(base, &asked, answer);
}

#[test]
fn refusals_1_to_3_beat_10() {
    let shop = small_shop();
    expect_bad_base(&[], 1);
    expect_bad_base(&[0; 35], 1);
    expect_bad_base(&[0; 2461], 1);
    expect_bad_base(&shop.bytes_with(|trailer| trailer.letters[0] = b'l'), 2);
    expect_bad_base(&shop.bytes_with(|trailer| trailer.letters = OLD_LETTERS), 2);
    expect_bad_base(&shop.old_bytes(OLD_LETTERS), 2);
    expect_bad_base(&shop.bytes_with(|trailer| trailer.roles = 9), 3);
    expect_bad_base(&shop.bytes(), 10);
}

#[test]
fn refusals_4_to_9_beat_10() {
    let spoiled = |spoil: fn(&mut BaseBuilder)| {
        let mut shop = small_shop();
        spoil(&mut shop);
        shop.bytes()
    };
    let exclusion = Exclusion {
        kind: 1,
        a: 0,
        b: 1,
    };
    let mut with_exclusion = small_shop();
    with_exclusion.exclusions = vec![exclusion];
    expect_bad_base(&spoiled(|shop| shop.hierarchy[1].junior = 3), 4);
    expect_bad_base(&spoiled(|shop| shop.users[3].parameter = 0), 5);
    expect_bad_base(&spoiled(|shop| shop.users[3].set_days(1, 0)), 5);
    expect_bad_base(&spoiled(|shop| shop.group_clauses[0].permission = 1), 6);
    expect_bad_base(&spoiled(|shop| shop.context_clauses[0].count = 0), 7);
    expect_bad_base(&spoiled(|shop| shop.policies[2].weight = 6), 8);
    expect_bad_base(&with_exclusion.bytes(), 9);
}

/// A record that plays no part in the question still refuses the base.
#[test]
fn refusal_9_beats_a_granted_group() {
    let mut shop = small_shop();
    shop.exclusions = vec![Exclusion {
        kind: 0,
        a: 0,
        b: 3,
    }];
    expect(&shop, &[MANAGER, CLERK], 9);
    shop.exclusions[0].b = 2;
    expect(&shop, &[MANAGER, CLERK], 0);
}

#[test]
fn refusal_10_beats_11() {
    let group = [MANAGER, CLERK].concat();
    expect_shop(1, 1440, &group, 10);
    expect_shop(0, 1440, &group, 11);
    expect_shop(1, 600, &group, 10);
}

#[test]
fn refusal_11_beats_12() {
    for group in [&[][..], &[0], &[0; 14]] {
        expect_shop(0, 1440, group, 11);
        expect_shop(0, 1439, group, 12);
    }
}

#[test]
fn refusal_12_beats_13() {
    expect_shop(0, 600, &[4, 2, 4], 12);
    expect_shop(0, 600, &[4, 2], 13);
    expect_shop(0, 600, &[255; 14], 12);
    expect_shop(0, 600, &[255; 12], 13);
}

#[test]
fn refusal_13_beats_14() {
    expect_early(&[MANAGER, MANAGER, ABSENT_USER], 13);
    expect_early(&[MANAGER, MANAGER, ABSENT_ROLE], 13);
    expect_early(&[ABSENT_USER, ABSENT_USER], 13);
    expect_early(&[ABSENT_ROLE, ABSENT_ROLE], 13);
    expect_early(&[MANAGER, MANAGER], 14);
}

#[test]
fn refusal_14_beats_15() {
    expect_early(&[MANAGER, MANAGER, AS_SENIOR], 14);
    expect_early(&[AS_SENIOR, AS_SENIOR], 14);
    expect_early(&[BUYER, AS_SENIOR], 14);
    expect_early(&[MANAGER, AS_SENIOR], 15);
}

#[test]
fn refusal_15_beats_16() {
    expect_early(&[AS_SENIOR, NO_WEIGHT], 15);
    expect_early(&[NO_WEIGHT], 16);
    expect_early(&[MANAGER, NO_WEIGHT], 16);
}

/// A user without roles as clerk, who has no weight early.
#[test]
fn refusal_15_beats_16_in_one_entry() {
    let mut shop = small_shop();
    shop.users[3].parameter = 1;
    expect_at(480, &shop, &[OTHER_CLERK], 15);
    expect_at(480, &shop, &[CLERK], 16);
    expect_at(480, &shop, &[CLERK, OTHER_CLERK], 15);
}

/// One entry doesn't meet the condition, which asks for two.
#[test]
fn refusal_16_beats_17() {
    expect_early(&[NO_WEIGHT], 16);
    expect_early(&[MANAGER], 17);
    expect_early(&[MANAGER, BUYER], 0);
}

/// Without a clause the condition never holds.
#[test]
fn refusal_16_beats_17_without_a_clause() {
    let mut shop = small_shop();
    shop.group_clauses.clear();
    expect_at(480, &shop, &[MANAGER, NO_WEIGHT], 16);
    expect_at(480, &shop, &[MANAGER, BUYER], 17);
}

#[test]
fn with_all_faults_the_first_is_named_and_then_the_next() {
    let group = [MANAGER, NO_WEIGHT, AS_SENIOR, MANAGER, ABSENT_USER].concat();
    let odd = [&group[..], &[0]].concat();
    expect_shop(1, 1440, &odd, 10);
    expect_shop(0, 1440, &odd, 11);
    expect_shop(0, 480, &odd, 12);
    expect_shop(0, 480, &group, 13);
    expect_shop(0, 480, &group[..8], 14);
    expect_shop(0, 480, &group[..6], 15);
    expect_shop(0, 480, &group[..4], 16);
    expect_shop(0, 480, &group[..2], 17);
}

/// Six users; the seventh stays for the faults. Role 1 has no weight.
fn seven_users() -> BaseBuilder {
    let mut base = open_base(3);
    base.policies.remove(1);
    base.users[6].parameter = 15;
    base
}

/// Expects this answer with a fault at each place of six, where the entry
/// before and the entry after it have a later fault.
fn expect_everywhere(fault: [u8; 2], later_fault: u8, answer: u8) {
    for place in 0..6 {
        let mut group = [0, 1, 2, 3, 4, 5].map(|user| [user, 0]);
        group[(place + 1) % 6][1] = later_fault;
        group[(place + 5) % 6][1] = later_fault;
        group[place] = fault;
        expect(&seven_users(), &group, answer);
    }
}

#[test]
fn an_absent_user_is_found_at_every_place() {
    expect_everywhere([7, 0], 1, 13);
    expect_everywhere([255, 0], 1, 13);
}

#[test]
fn an_absent_role_is_found_at_every_place() {
    expect_everywhere([6, 3], 1, 13);
    expect_everywhere([6, 255], 1, 13);
}

#[test]
fn a_role_not_to_act_in_is_found_at_every_place() {
    expect_everywhere([6, 2], 1, 15);
}

/// User 6 comes up to the day before the date. Role 1 has no weight.
#[test]
fn a_user_out_of_date_is_found_at_every_place() {
    let mut base = seven_users();
    base.users[6].set_days(0, SOME_DATE as u16 - 1);
    for place in 0..6 {
        let mut group = [0, 1, 2, 3, 4, 5].map(|user| [user, 0]);
        group[place] = [6, 0];
        expect(&base, &group, 24);
        group[(place + 1) % 6][1] = 1;
        group[(place + 5) % 6][1] = 1;
        expect(&base, &group, 24);
        group[place] = [6, 2];
        expect(&base, &group, 15);
    }
}

#[test]
fn a_role_without_weight_is_found_at_every_place() {
    expect_everywhere([6, 1], 0, 16);
    expect_everywhere([6, 0], 0, 0);
}

#[test]
fn a_user_twice_is_found_at_every_two_places() {
    for first in 0..6 {
        for second in (0..6).filter(|&second| second != first) {
            let mut group = [0, 1, 2, 3, 4, 5].map(|user| [user, 1]);
            group[second] = [group[first][0], 0];
            expect(&seven_users(), &group, 14);
        }
    }
}
