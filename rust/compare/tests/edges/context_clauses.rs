//! Refusal 7: C records.

use compare::builder::{BaseBuilder, ContextClause, ContextCondition};
use compare::expect_check;

/// Expects this answer for a base of one role and no permission.
fn expect_clause(clause: ContextClause, answer: u8) {
    let mut base = BaseBuilder::new(1);
    base.context_clauses.push(clause);
    expect_check(&base.bytes(), answer);
}

fn expect_condition(condition: ContextCondition, answer: u8) {
    expect_clause(ContextClause::new(0, &[condition]), answer);
}

#[test]
fn minute_1439_passes() {
    expect_condition((0, 4, 1439), 0);
}

#[test]
fn minute_1440_is_refused() {
    expect_condition((0, 4, 1440), 7);
    expect_condition((0, 4, u16::MAX), 7);
}

#[test]
fn day_6_passes() {
    expect_condition((1, 4, 6), 0);
}

#[test]
fn day_7_is_refused() {
    expect_condition((1, 4, 7), 7);
    expect_condition((1, 4, 256), 7);
}

#[test]
fn zone_255_passes() {
    expect_condition((2, 4, 255), 0);
}

#[test]
fn zone_256_is_refused() {
    expect_condition((2, 4, 256), 7);
    expect_condition((2, 4, 32_768), 7);
}

#[test]
fn value_0_passes_for_each_parameter() {
    for parameter in 0..=2 {
        expect_condition((parameter, 1, 0), 0);
    }
}

#[test]
fn the_range_counts_for_every_operator() {
    for operator in 0..=5 {
        expect_condition((0, operator, 1439), 0);
        expect_condition((0, operator, 1440), 7);
        expect_condition((1, operator, 6), 0);
        expect_condition((1, operator, 7), 7);
        expect_condition((2, operator, 255), 0);
        expect_condition((2, operator, 256), 7);
    }
}

#[test]
fn parameter_3_is_refused() {
    expect_condition((3, 4, 0), 7);
    expect_condition((255, 4, 0), 7);
}

#[test]
fn operator_5_passes() {
    expect_condition((0, 5, 0), 0);
}

#[test]
fn operator_6_is_refused() {
    for parameter in 0..=2 {
        expect_condition((parameter, 6, 0), 7);
        expect_condition((parameter, 255, 0), 7);
    }
}

fn expect_number(context: u8, answer: u8) {
    expect_clause(ContextClause::new(context, &[(0, 2, 540)]), answer);
}

#[test]
fn context_number_15_passes() {
    expect_number(15, 0);
}

#[test]
fn context_number_16_is_refused() {
    expect_number(16, 7);
}

#[test]
fn context_number_255_is_refused() {
    expect_number(255, 7);
}

#[test]
fn no_conditions_are_refused() {
    expect_clause(ContextClause::new(0, &[]), 7);
}

#[test]
fn one_condition_passes() {
    expect_clause(ContextClause::new(0, &[(0, 2, 540)]), 0);
}

#[test]
fn three_conditions_pass() {
    let conditions = [(0, 2, 540), (1, 5, 6), (2, 4, 255)];
    expect_clause(ContextClause::new(0, &conditions), 0);
}

#[test]
fn four_conditions_are_refused() {
    let mut clause = ContextClause::new(0, &[(0, 2, 540); 3]);
    clause.count = 4;
    expect_clause(clause, 7);
}

#[test]
fn conditions_255_are_refused() {
    let mut clause = ContextClause::new(0, &[(0, 2, 540); 3]);
    clause.count = 255;
    expect_clause(clause, 7);
}

#[test]
fn every_condition_in_use_is_checked() {
    for place in 0..3 {
        let mut conditions = [(0, 2, 540); 3];
        conditions[place].2 = 1440;
        expect_clause(ContextClause::new(0, &conditions), 7);
    }
}

#[test]
fn every_byte_of_an_unused_condition_is_zero() {
    for used in 1..3 {
        for place in used..3 {
            for condition in [(1, 0, 0), (0, 1, 0), (0, 0, 1), (0, 0, 256)] {
                let mut clause = ContextClause::new(0, &vec![(0, 2, 540); used]);
                clause.conditions[place] = condition;
                expect_clause(clause, 7);
            }
        }
    }
}

#[test]
fn the_first_zero_byte_counts() {
    let mut clause = ContextClause::new(0, &[(0, 2, 540)]);
    clause.zeros = [1, 0];
    expect_clause(clause, 7);
}

#[test]
fn the_second_zero_byte_counts() {
    let mut clause = ContextClause::new(0, &[(0, 2, 540); 3]);
    clause.zeros = [0, 128];
    expect_clause(clause, 7);
}

#[test]
fn a_context_may_have_several_clauses() {
    let mut base = BaseBuilder::new(1);
    base.context_clauses = vec![ContextClause::new(3, &[(0, 2, 540)]); 2];
    expect_check(&base.bytes(), 0);
}

/// A clause that can never hold keeps the rules all the same.
#[test]
fn a_clause_that_never_holds_passes() {
    expect_condition((0, 1, 0), 0);
    expect_condition((1, 0, 6), 0);
}

#[test]
fn a_bad_clause_is_found_at_every_place() {
    for place in 0..32 {
        let mut base = BaseBuilder::new(1);
        base.context_clauses = vec![ContextClause::new(0, &[(0, 2, 540)]); 32];
        base.context_clauses[place].context = 16;
        expect_check(&base.bytes(), 7);
    }
}
