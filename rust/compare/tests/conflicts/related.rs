//! Related context numbers, as the list shows them: two policies that differ
//! in weight alone conflict exactly if their contexts are related.

use crate::setups::*;
use compare::builder::*;

const MINUTE: u8 = 0;
const DAY: u8 = 1;
const ZONE: u8 = 2;

const GREATER: u8 = 0;
const LESS: u8 = 1;
const AT_LEAST: u8 = 2;
const AT_MOST: u8 = 3;
const EQUAL: u8 = 4;
const UNEQUAL: u8 = 5;

/// A context number's clause.
type Clause<'a> = (u8, &'a [ContextCondition]);

/// Expects that two numbers are related or not, either way round.
fn expect(clauses: &[Clause], one: u8, other: u8, related: bool) {
    let clauses = clauses.iter();
    let mut base = BaseBuilder::new(1).with_permissions(1);
    base.context_clauses = clauses.map(|(n, c)| ContextClause::new(*n, c)).collect();
    let list = [[1, 0, 1]];
    let list = if related { &list[..] } else { &[] };
    for (first, second) in [(one, other), (other, one)] {
        base.policies = vec![
            Policy::new(0, 0, 1, 0, first),
            Policy::new(0, 0, 2, 0, second),
        ];
        expect_list(&base, list);
    }
}

/// Expects of contexts 3 and 12, a clause each, that they are related or not.
fn expect_clauses(one: &[ContextCondition], other: &[ContextCondition], related: bool) {
    expect(&[(3, one), (12, other)], 3, 12, related);
    expect(&[(12, other), (3, one)], 3, 12, related);
}

/// Expects that a clause can hold or not: by one number, by two numbers and
/// beside 255.
fn expect_possible(clause: &[ContextCondition], possible: bool) {
    expect(&[(4, clause)], 4, 4, possible);
    expect(&[(4, clause)], 4, 255, possible);
    expect_clauses(clause, clause, possible);
}

#[test]
fn touching_minutes_are_related() {
    expect_clauses(&[(MINUTE, AT_MOST, 600)], &[(MINUTE, AT_LEAST, 600)], true);
}

#[test]
fn minutes_that_just_miss_are_not_related() {
    expect_clauses(&[(MINUTE, LESS, 600)], &[(MINUTE, AT_LEAST, 600)], false);
    expect_clauses(&[(MINUTE, AT_MOST, 600)], &[(MINUTE, GREATER, 600)], false);
    expect_clauses(&[(MINUTE, LESS, 600)], &[(MINUTE, GREATER, 599)], false);
    expect_clauses(&[(MINUTE, LESS, 600)], &[(MINUTE, GREATER, 598)], true);
}

#[test]
fn below_the_range_is_empty() {
    for parameter in [MINUTE, DAY, ZONE] {
        expect_possible(&[(parameter, LESS, 0)], false);
        expect_possible(&[(parameter, LESS, 1)], true);
        expect_possible(&[(parameter, AT_MOST, 0)], true);
    }
}

#[test]
fn above_the_range_is_empty() {
    for (parameter, last) in [(MINUTE, 1439), (DAY, 6), (ZONE, 255)] {
        expect_possible(&[(parameter, GREATER, last)], false);
        expect_possible(&[(parameter, GREATER, last - 1)], true);
        expect_possible(&[(parameter, AT_LEAST, last)], true);
        expect_possible(
            &[(parameter, UNEQUAL, last), (parameter, AT_LEAST, last)],
            false,
        );
    }
}

#[test]
fn holes_empty_the_end_of_the_range() {
    let clause = |first| [(DAY, AT_LEAST, first), (DAY, UNEQUAL, 5), (DAY, UNEQUAL, 6)];
    expect_possible(&clause(5), false);
    expect_possible(&clause(4), true);
}

#[test]
fn holes_of_both_clauses_count() {
    let low = [(DAY, LESS, 3), (DAY, UNEQUAL, 0), (DAY, UNEQUAL, 1)];
    expect_clauses(&low, &[(DAY, UNEQUAL, 2)], false);
    expect_clauses(&low, &[(DAY, UNEQUAL, 3)], true);
    expect_clauses(&low[..2], &[(DAY, UNEQUAL, 2)], true);
    let few = [(DAY, LESS, 6), (DAY, UNEQUAL, 1), (DAY, UNEQUAL, 3)];
    let fewer = [(DAY, GREATER, 0), (DAY, UNEQUAL, 2), (DAY, UNEQUAL, 5)];
    expect_clauses(&few, &fewer, true);
}

/// Day 1 to 4, and four holes in it.
#[test]
fn four_holes_can_empty_a_range() {
    let one = [(DAY, AT_LEAST, 1), (DAY, UNEQUAL, 1), (DAY, UNEQUAL, 3)];
    let other = [(DAY, AT_MOST, 4), (DAY, UNEQUAL, 2), (DAY, UNEQUAL, 4)];
    expect_clauses(&one, &other, false);
    expect_clauses(&one[..2], &other, true);
    expect_clauses(&one, &other[..2], true);
}

#[test]
fn no_whole_number_lies_between_two_neighbours() {
    for parameter in [MINUTE, DAY, ZONE] {
        expect_possible(&[(parameter, GREATER, 0), (parameter, LESS, 1)], false);
        expect_possible(&[(parameter, GREATER, 0), (parameter, LESS, 2)], true);
        expect_clauses(&[(parameter, GREATER, 0)], &[(parameter, LESS, 1)], false);
        expect_clauses(&[(parameter, GREATER, 0)], &[(parameter, LESS, 2)], true);
    }
}

#[test]
fn equal_and_unequal_values() {
    for (parameter, last) in [(MINUTE, 1439), (DAY, 6), (ZONE, 255)] {
        let (equal, unequal) = ((parameter, EQUAL, last), (parameter, UNEQUAL, last));
        expect_clauses(&[equal], &[equal], true);
        expect_clauses(&[equal], &[unequal], false);
        expect_clauses(&[unequal], &[unequal], true);
        expect_clauses(&[equal], &[(parameter, EQUAL, last - 1)], false);
    }
}

#[test]
fn all_parameters_have_to_fit_in_one_context() {
    let clause = |zone| [(MINUTE, LESS, 600), (DAY, EQUAL, 6), (ZONE, EQUAL, zone)];
    expect_clauses(&clause(1), &clause(1), true);
    expect_clauses(&clause(1), &clause(2), false);
    expect_clauses(&clause(1), &clause(2)[..2], true);
}

#[test]
fn different_parameters_do_not_meet() {
    expect_clauses(&[(DAY, EQUAL, 1)], &[(ZONE, EQUAL, 2)], true);
    expect_clauses(&[(MINUTE, LESS, 3)], &[(ZONE, GREATER, 3)], true);
    expect_clauses(&[(MINUTE, LESS, 3)], &[(DAY, LESS, 0)], false);
}

#[test]
fn a_number_without_clauses_is_related_to_nothing() {
    let always: Clause = (0, &[(MINUTE, AT_LEAST, 0)]);
    for empty in [1, 15] {
        for other in [0, empty, 255, 14] {
            expect(&[always], empty, other, false);
            expect(&[], empty, other, false);
        }
    }
}

#[test]
fn none_is_related_to_none() {
    expect(&[], 255, 255, true);
    expect(&[(15, &[(MINUTE, LESS, 0)])], 255, 255, true);
}

#[test]
fn none_is_related_to_a_number_that_can_hold() {
    for number in [0, 7, 15] {
        expect(&[(number, &[(DAY, EQUAL, 3)])], number, 255, true);
        expect(&[(number, &[(DAY, LESS, 0)])], number, 255, false);
    }
}

#[test]
fn related_through_the_second_clause_of_each() {
    let (one, other) = ([(DAY, EQUAL, 1)], [(DAY, EQUAL, 2)]);
    let never = [(DAY, LESS, 0)];
    let apart: [Clause; 3] = [(5, &one), (9, &other), (5, &never)];
    expect(&apart, 5, 9, false);
    let last = [(DAY, EQUAL, 3)];
    let second = [(5, &one[..]), (9, &other), (5, &last), (9, &last)];
    expect(&second, 5, 9, true);
    let second = [(9, &never[..]), (9, &last), (5, &never), (5, &last)];
    expect(&second, 5, 9, true);
    expect(&second, 5, 255, true);
}

#[test]
fn related_through_the_first_of_one_and_the_last_of_the_other() {
    let clauses: [Clause; 4] = [
        (5, &[(DAY, EQUAL, 4)]),
        (5, &[(DAY, EQUAL, 1)]),
        (9, &[(DAY, EQUAL, 2)]),
        (9, &[(DAY, EQUAL, 4)]),
    ];
    expect(&clauses, 5, 9, true);
    expect(&clauses[..3], 5, 9, false);
}

/// Contexts 6 and 8 meet both 5 and 9, which don't meet each other.
#[test]
fn clauses_of_other_numbers_play_no_part() {
    let clauses: [Clause; 4] = [
        (6, &[(DAY, LESS, 6)]),
        (5, &[(DAY, EQUAL, 1)]),
        (9, &[(DAY, EQUAL, 2)]),
        (8, &[(DAY, LESS, 6)]),
    ];
    expect(&clauses, 5, 9, false);
    expect(&clauses, 5, 6, true);
    expect(&clauses, 8, 9, true);
}

#[test]
fn related_through_the_last_of_32_clauses() {
    let never: Clause = (0, &[(ZONE, GREATER, 255)]);
    let mut clauses = vec![never; 32];
    expect(&clauses, 0, 255, false);
    clauses[31] = (0, &[(ZONE, EQUAL, 255)]);
    expect(&clauses, 0, 255, true);
    expect(&clauses, 0, 0, true);
}
