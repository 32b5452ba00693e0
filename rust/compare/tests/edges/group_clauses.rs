//! Refusal 6: K records.

use compare::builder::{BaseBuilder, GroupClause, GroupCondition};
use compare::expect_check;

/// Expects this answer for a base of three roles and two permissions.
fn expect_clause(clause: GroupClause, answer: u8) {
    let mut base = BaseBuilder::new(3).with_permissions(2);
    base.group_clauses.push(clause);
    expect_check(&base.bytes(), answer);
}

fn expect_condition(condition: GroupCondition, answer: u8) {
    expect_clause(GroupClause::new(0, &[condition]), answer);
}

#[test]
fn attributes_0_to_2_take_operators_0_to_5() {
    for attribute in 0..=2 {
        for operator in 0..=5 {
            expect_condition((attribute, operator, 1), 0);
        }
    }
}

#[test]
fn attributes_0_to_2_refuse_contains() {
    for attribute in 0..=2 {
        expect_condition((attribute, 6, 1), 6);
    }
}

#[test]
fn attributes_0_to_2_take_every_value() {
    for attribute in 0..=2 {
        for value in 0..=255 {
            expect_condition((attribute, 4, value), 0);
        }
    }
}

#[test]
fn attribute_3_takes_contains() {
    expect_condition((3, 6, 1), 0);
}

#[test]
fn attribute_3_refuses_operators_0_to_5() {
    for operator in 0..=5 {
        expect_condition((3, operator, 1), 6);
    }
}

#[test]
fn attribute_4_is_refused() {
    for operator in 0..=7 {
        expect_condition((4, operator, 1), 6);
    }
    expect_condition((255, 6, 1), 6);
}

#[test]
fn operator_7_is_refused() {
    for attribute in 0..=3 {
        expect_condition((attribute, 7, 1), 6);
        expect_condition((attribute, 255, 1), 6);
    }
}

#[test]
fn a_set_value_of_0_passes() {
    expect_condition((3, 6, 0), 0);
}

#[test]
fn a_set_value_of_all_roles_passes() {
    expect_condition((3, 6, 0b111), 0);
}

#[test]
fn a_set_value_with_a_bit_at_r_is_refused() {
    expect_condition((3, 6, 0b1000), 6);
    expect_condition((3, 6, 0b1111), 6);
}

#[test]
fn a_set_value_with_a_bit_above_r_is_refused() {
    expect_condition((3, 6, 0b1_0000), 6);
    expect_condition((3, 6, 0b1000_0000), 6);
}

/// Expects this answer for a set value and this many roles.
fn expect_set(roles: u8, value: u8, answer: u8) {
    let mut base = BaseBuilder::new(roles).with_permissions(1);
    base.group_clauses = vec![GroupClause::new(0, &[(3, 6, value)])];
    expect_check(&base.bytes(), answer);
}

#[test]
fn eight_roles_take_every_set_value() {
    expect_set(8, 255, 0);
    expect_set(8, 128, 0);
}

#[test]
fn seven_roles_refuse_the_highest_bit() {
    expect_set(7, 127, 0);
    expect_set(7, 128, 6);
}

#[test]
fn one_role_takes_set_values_0_and_1() {
    expect_set(1, 0, 0);
    expect_set(1, 1, 0);
    expect_set(1, 2, 6);
}

#[test]
fn no_conditions_are_refused() {
    expect_clause(GroupClause::new(0, &[]), 6);
}

#[test]
fn one_condition_passes() {
    expect_clause(GroupClause::new(0, &[(0, 2, 2)]), 0);
}

#[test]
fn four_conditions_pass() {
    let conditions = [(0, 2, 2), (1, 2, 5), (2, 5, 0), (3, 6, 5)];
    expect_clause(GroupClause::new(0, &conditions), 0);
}

#[test]
fn five_conditions_are_refused() {
    let mut clause = GroupClause::new(0, &[(0, 2, 2); 4]);
    clause.count = 5;
    expect_clause(clause, 6);
}

#[test]
fn conditions_255_are_refused() {
    let mut clause = GroupClause::new(0, &[(0, 2, 2); 4]);
    clause.count = 255;
    expect_clause(clause, 6);
}

/// Zero bytes in use are attribute 0, operator >, value 0.
#[test]
fn a_condition_in_use_may_be_zero_bytes() {
    expect_clause(GroupClause::new(0, &[(0, 0, 0); 4]), 0);
}

#[test]
fn every_condition_in_use_is_checked() {
    for place in 0..4 {
        let mut conditions = [(0, 2, 2); 4];
        conditions[place].1 = 6;
        expect_clause(GroupClause::new(0, &conditions), 6);
    }
}

#[test]
fn every_byte_of_an_unused_condition_is_zero() {
    for used in 1..4 {
        for place in used..4 {
            for condition in [(1, 0, 0), (0, 1, 0), (0, 0, 1)] {
                let mut clause = GroupClause::new(0, &vec![(0, 2, 2); used]);
                clause.conditions[place] = condition;
                expect_clause(clause, 6);
            }
        }
    }
}

#[test]
fn the_first_zero_byte_counts() {
    let mut clause = GroupClause::new(0, &[(0, 2, 2)]);
    clause.zeros = [1, 0];
    expect_clause(clause, 6);
}

#[test]
fn the_second_zero_byte_counts() {
    let mut clause = GroupClause::new(0, &[(0, 2, 2)]);
    clause.zeros = [0, 128];
    expect_clause(clause, 6);
}

#[test]
fn the_zero_bytes_count_after_four_conditions() {
    let mut clause = GroupClause::new(0, &[(0, 2, 2); 4]);
    clause.zeros = [0, 1];
    expect_clause(clause, 6);
}

#[test]
fn the_last_permission_passes() {
    expect_clause(GroupClause::new(1, &[(0, 2, 2)]), 0);
}

#[test]
fn a_permission_past_the_last_is_refused() {
    expect_clause(GroupClause::new(2, &[(0, 2, 2)]), 6);
    expect_clause(GroupClause::new(255, &[(0, 2, 2)]), 6);
}

#[test]
fn without_permissions_every_group_clause_is_refused() {
    let mut base = BaseBuilder::new(3);
    base.group_clauses = vec![GroupClause::new(0, &[(0, 2, 2)])];
    expect_check(&base.bytes(), 6);
}

#[test]
fn a_permission_may_have_several_clauses_or_none() {
    let mut base = BaseBuilder::new(3).with_permissions(2);
    base.group_clauses = vec![GroupClause::new(1, &[(0, 2, 2)]); 2];
    expect_check(&base.bytes(), 0);
}

#[test]
fn a_bad_clause_is_found_at_every_place() {
    for place in 0..64 {
        let mut base = BaseBuilder::new(3).with_permissions(2);
        base.group_clauses = vec![GroupClause::new(0, &[(0, 2, 2)]); 64];
        base.group_clauses[place].permission = 2;
        expect_check(&base.bytes(), 6);
    }
}
