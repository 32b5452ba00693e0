//! When a policy is active. The policy's role is acted in by a user who holds
//! it, so the answer is 0 where the context holds and 16 where it doesn't.

use crate::setups::*;
use compare::builder::*;
use compare::expect_decision;
use compare::questions::{Asked, SOME_DATE};
use model::Context;

/// One policy under context 0, which has these clauses.
fn under(clauses: &[&[ContextCondition]]) -> BaseBuilder {
    let clauses = clauses.iter();
    let mut base = open_base(1);
    base.policies[0].context = 0;
    base.context_clauses = clauses.map(|c| ContextClause::new(0, c)).collect();
    base
}

/// Expects this answer at a minute, a day and a zone, whatever the date.
fn expect_in(base: &BaseBuilder, (minute, day, zone): (u32, u32, u32), answer: u8) {
    for date in [0, minute, SOME_DATE, 65_535] {
        let at = Context {
            minute,
            day,
            zone,
            date,
        };
        expect_decision(&base.bytes(), &Asked::new(0, at, &[[0, 0]]), answer);
    }
}

#[test]
fn a_number_without_clauses_never_holds() {
    for context in 0..16 {
        let mut base = under(&[]);
        base.policies[0].context = context;
        for at in [(0, 0, 0), (600, 3, 128), (1439, 6, 255)] {
            expect_in(&base, at, 16);
        }
    }
}

/// Context 0 has a clause that always holds; 1 to 15 have none.
#[test]
fn another_numbers_clause_does_not_count() {
    let mut base = under(&[&[(0, 2, 0)]]);
    expect_in(&base, (600, 0, 0), 0);
    for context in 1..16 {
        base.policies[0].context = context;
        expect_in(&base, (600, 0, 0), 16);
    }
}

#[test]
fn each_number_has_its_own_clauses() {
    let mut base = under(&[]);
    base.context_clauses = (0..16)
        .map(|number| ContextClause::new(number, &[(0, 4, number.into())]))
        .collect();
    for context in 0..16 {
        base.policies[0].context = context;
        for minute in 0..17 {
            let answer = if minute == u32::from(context) { 0 } else { 16 };
            expect_in(&base, (minute, 0, 0), answer);
        }
    }
}

#[test]
fn none_holds_beside_clauses_that_do_not() {
    let mut base = under(&[&[(0, 1, 0)]]);
    expect_in(&base, (600, 0, 0), 16);
    base.policies[0].context = NO_CONTEXT;
    expect_in(&base, (600, 0, 0), 0);
}

#[test]
fn one_clause_that_holds_suffices() {
    let base = under(&[&[(0, 4, 60)], &[(1, 4, 3)], &[(2, 4, 9)]]);
    expect_in(&base, (60, 0, 0), 0);
    expect_in(&base, (0, 3, 0), 0);
    expect_in(&base, (0, 0, 9), 0);
    expect_in(&base, (59, 2, 8), 16);
}

#[test]
fn conditions_met_in_different_clauses_are_not_one_clause() {
    let base = under(&[&[(0, 4, 600), (1, 4, 3)], &[(0, 4, 700), (1, 4, 4)]]);
    expect_in(&base, (600, 3, 0), 0);
    expect_in(&base, (700, 4, 0), 0);
    expect_in(&base, (600, 4, 0), 16);
    expect_in(&base, (700, 3, 0), 16);
}

#[test]
fn each_of_three_conditions_counts() {
    let base = under(&[&[(0, 4, 600), (1, 4, 3), (2, 4, 9)]]);
    expect_in(&base, (600, 3, 9), 0);
    expect_in(&base, (601, 3, 9), 16);
    expect_in(&base, (600, 2, 9), 16);
    expect_in(&base, (600, 3, 8), 16);
}

/// The zero bytes of a condition that isn't in use would read minute > 0.
#[test]
fn conditions_beyond_the_count_are_not_read() {
    expect_in(&under(&[&[(0, 3, 0)]]), (0, 0, 0), 0);
    expect_in(&under(&[&[(1, 4, 2)]]), (0, 2, 0), 0);
    expect_in(&under(&[&[(1, 4, 2), (2, 4, 1)]]), (0, 2, 1), 0);
    expect_in(&under(&[&[(0, 0, 0)]]), (0, 0, 0), 16);
}

#[test]
fn a_parameter_is_read_from_its_own_place() {
    for (parameter, at) in [(0, (5, 0, 0)), (1, (0, 5, 0)), (2, (0, 0, 5))] {
        for asked in 0..3 {
            let answer = if asked == parameter { 0 } else { 16 };
            expect_in(&under(&[&[(asked, 4, 5)]]), at, answer);
        }
    }
}

/// 540 is 2 times 256 and 28.
#[test]
fn both_bytes_of_a_minute_count() {
    let base = under(&[&[(0, 4, 540)]]);
    expect_in(&base, (540, 0, 0), 0);
    for minute in [2, 28, 284, 796, 1052, 1308] {
        expect_in(&base, (minute, 0, 0), 16);
    }
}

/// Expects of operators 0 to 5 that each has its answer at a value.
fn expect_operators(parameter: u8, value: u16, at: (u32, u32, u32), answers: [u8; 6]) {
    for (operator, answer) in (0..).zip(answers) {
        expect_in(&under(&[&[(parameter, operator, value)]]), at, answer);
    }
}

const BELOW: [u8; 6] = [16, 0, 16, 0, 16, 0];
const EQUAL: [u8; 6] = [16, 16, 0, 0, 0, 16];
const ABOVE: [u8; 6] = [0, 16, 0, 16, 16, 0];

#[test]
fn operators_compare_the_minute() {
    expect_operators(0, 600, (599, 0, 0), BELOW);
    expect_operators(0, 600, (600, 0, 0), EQUAL);
    expect_operators(0, 600, (601, 0, 0), ABOVE);
}

/// Where the lower byte alone would say otherwise.
#[test]
fn operators_compare_minutes_of_two_bytes() {
    expect_operators(0, 256, (255, 0, 0), BELOW);
    expect_operators(0, 256, (256, 0, 0), EQUAL);
    expect_operators(0, 255, (256, 0, 0), ABOVE);
    expect_operators(0, 512, (256, 0, 0), BELOW);
}

#[test]
fn operators_compare_the_day() {
    expect_operators(1, 3, (0, 2, 0), BELOW);
    expect_operators(1, 3, (0, 3, 0), EQUAL);
    expect_operators(1, 3, (0, 4, 0), ABOVE);
}

#[test]
fn operators_compare_the_zone() {
    expect_operators(2, 128, (0, 0, 127), BELOW);
    expect_operators(2, 128, (0, 0, 128), EQUAL);
    expect_operators(2, 128, (0, 0, 129), ABOVE);
}

#[test]
fn operators_compare_at_the_ends_of_the_ranges() {
    for (parameter, last, at) in [(0, 1439, 1439), (1, 6, 6), (2, 255, 255)] {
        let placed = |value: u32| {
            let mut at = [0; 3];
            at[usize::from(parameter)] = value;
            (at[0], at[1], at[2])
        };
        expect_operators(parameter, 0, placed(0), EQUAL);
        expect_operators(parameter, 0, placed(1), ABOVE);
        expect_operators(parameter, last, placed(at), EQUAL);
        expect_operators(parameter, last, placed(at - 1), BELOW);
    }
}

#[test]
fn the_last_of_32_clauses_counts() {
    let never: &[ContextCondition] = &[(0, 1, 0)];
    let mut base = under(&[never; 32]);
    expect_in(&base, (600, 0, 0), 16);
    base.context_clauses[31] = ContextClause::new(0, &[(0, 2, 0)]);
    expect_in(&base, (600, 0, 0), 0);
}
