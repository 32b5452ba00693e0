//! Refusal 17: all conditions of one clause of the permission have to hold.
//! The small shop's manager and clerk are two entries with a sum of 6, in two
//! roles, at minute 600.

use crate::setups::*;
use compare::builder::*;

const TWO_ENTRIES: GroupCondition = (0, 4, 2);
const SUM_6: GroupCondition = (1, 4, 6);
const TWO_ROLES: GroupCondition = (2, 4, 2);
const WITH_CLERK: GroupCondition = (3, 6, 0b100);

const THREE_ENTRIES: GroupCondition = (0, 4, 3);
const SUM_7: GroupCondition = (1, 4, 7);
const THREE_ROLES: GroupCondition = (2, 4, 3);
const WITH_BUYER: GroupCondition = (3, 6, 0b010);

/// Expects this answer for manager and clerk by these clauses.
fn expect_clauses(clauses: &[&[GroupCondition]], answer: u8) {
    expect(&shop_with_clauses(clauses), &[MANAGER, CLERK], answer);
}

#[test]
fn without_a_clause_the_condition_never_holds() {
    expect_clauses(&[], 17);
    let everybody = [MANAGER, BUYER, CLERK, OTHER_CLERK];
    expect(&shop_with_clauses(&[]), &everybody, 17);
}

#[test]
fn another_permissions_clause_does_not_count() {
    let mut base = shop_with_clauses(&[&[TWO_ENTRIES]]).with_permissions(2);
    expect(&base, &[MANAGER, CLERK], 0);
    base.group_clauses[0].permission = 1;
    expect(&base, &[MANAGER, CLERK], 17);
}

/// Permission 0 has a clause that fails, permission 1 one that holds.
#[test]
fn another_permissions_clause_does_not_help() {
    let clauses: [&[GroupCondition]; 2] = [&[THREE_ENTRIES], &[TWO_ENTRIES]];
    let mut base = shop_with_clauses(&clauses).with_permissions(2);
    base.group_clauses[1].permission = 1;
    expect(&base, &[MANAGER, CLERK], 17);
    base.group_clauses.swap(0, 1);
    expect(&base, &[MANAGER, CLERK], 17);
}

#[test]
fn one_clause_of_one_condition_suffices() {
    for condition in [TWO_ENTRIES, SUM_6, TWO_ROLES, WITH_CLERK] {
        expect_clauses(&[&[condition]], 0);
    }
    for condition in [THREE_ENTRIES, SUM_7, THREE_ROLES, WITH_BUYER] {
        expect_clauses(&[&[condition]], 17);
    }
}

#[test]
fn each_of_four_conditions_counts() {
    let met = [TWO_ENTRIES, SUM_6, TWO_ROLES, WITH_CLERK];
    let unmet = [THREE_ENTRIES, SUM_7, THREE_ROLES, WITH_BUYER];
    expect_clauses(&[&met], 0);
    for place in 0..4 {
        for other in unmet {
            let mut conditions = met;
            conditions[place] = other;
            expect_clauses(&[&conditions], 17);
        }
    }
}

#[test]
fn each_condition_of_a_shorter_clause_counts() {
    for count in 1..4 {
        for place in 0..count {
            let mut conditions = vec![TWO_ENTRIES; count];
            expect_clauses(&[&conditions], 0);
            conditions[place] = THREE_ENTRIES;
            expect_clauses(&[&conditions], 17);
        }
    }
}

#[test]
fn one_of_several_clauses_suffices() {
    let held: &[GroupCondition] = &[TWO_ENTRIES, SUM_6];
    let failed: &[GroupCondition] = &[TWO_ENTRIES, SUM_7];
    expect_clauses(&[held, failed, failed], 0);
    expect_clauses(&[failed, held, failed], 0);
    expect_clauses(&[failed, failed, held], 0);
    expect_clauses(&[failed, failed, failed], 17);
}

#[test]
fn conditions_met_in_different_clauses_are_not_one_clause() {
    let first_half: &[GroupCondition] = &[TWO_ENTRIES, SUM_7];
    let second_half: &[GroupCondition] = &[THREE_ENTRIES, SUM_6];
    expect_clauses(&[first_half, second_half], 17);
    expect_clauses(&[second_half, first_half], 17);
    expect_clauses(&[first_half, first_half], 17);
    expect_clauses(&[&[TWO_ENTRIES, SUM_6]], 0);
}

#[test]
fn four_conditions_met_in_four_clauses_are_not_one_clause() {
    let met = [TWO_ENTRIES, SUM_6, TWO_ROLES, WITH_CLERK];
    let unmet = [THREE_ENTRIES, SUM_7, THREE_ROLES, WITH_BUYER];
    let one_met = |place: usize| {
        let mut conditions = unmet;
        conditions[place] = met[place];
        conditions
    };
    let clauses = [0, 1, 2, 3].map(one_met);
    let clauses: Vec<&[GroupCondition]> = clauses.iter().map(|c| &c[..]).collect();
    expect_clauses(&clauses, 17);
    let three_met = [TWO_ENTRIES, SUM_6, TWO_ROLES, WITH_BUYER];
    expect_clauses(&[&three_met, &[WITH_BUYER, WITH_CLERK]], 17);
}

#[test]
fn a_condition_may_stand_twice() {
    expect_clauses(&[&[TWO_ENTRIES, TWO_ENTRIES]], 0);
    expect_clauses(&[&[TWO_ENTRIES, THREE_ENTRIES]], 17);
}

#[test]
fn the_last_of_64_clauses_counts() {
    let failed: &[GroupCondition] = &[THREE_ENTRIES];
    let mut base = shop_with_clauses(&[failed; 64]);
    expect(&base, &[MANAGER, CLERK], 17);
    base.group_clauses[63] = GroupClause::new(0, &[TWO_ENTRIES]);
    expect(&base, &[MANAGER, CLERK], 0);
}
