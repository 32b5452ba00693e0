//! The lent buffer: how long it has to be, and which bytes it gets.

use crate::setups::*;
use compare::builder::*;
use compare::questions::at_minute;
use compare::shop::small_shop;
use compare::shown::RECORD;
use compare::{expect_report, expect_report_refused, library_context};

#[test]
fn without_permissions_an_empty_buffer_suffices() {
    for base in [BaseBuilder::new(1), BaseBuilder::new(8)] {
        expect_report(&base.bytes(), at_minute(0), 0, &[]);
    }
}

#[test]
fn without_permissions_nothing_is_written() {
    let mut base = small_shop();
    base.permissions.clear();
    base.group_clauses.clear();
    base.policies.clear();
    for length in [0, 1, 12, 13, 14, 300] {
        expect_report(&base.bytes(), at_minute(600), length, &[]);
    }
}

#[test]
fn one_byte_less_than_13_a_permission_gets_19() {
    for permissions in 1..=16 {
        let base = BaseBuilder::new(1).with_permissions(permissions).bytes();
        let whole = RECORD * permissions;
        expect_report_refused(&base, at_minute(0), whole - 1, 19);
        expect_report(&base, at_minute(0), whole, &vec![0; permissions]);
    }
}

#[test]
fn every_shorter_buffer_gets_19_and_no_byte() {
    for length in 0..13 {
        expect_report_refused(&small_shop().bytes(), at_minute(600), length, 19);
    }
}

#[test]
fn an_exact_buffer_suffices() {
    expect_report(&small_shop().bytes(), at_minute(600), 13, &[2]);
}

#[test]
fn later_bytes_keep_their_contents() {
    for length in [14, 25, 26, 27, 255, 256, 70_000] {
        expect_report(&small_shop().bytes(), at_minute(600), length, &[2]);
    }
}

/// Permission p asks for p entries, and there are six users: 1 to 6 have the
/// numbers 1 to 6, the others none.
fn one_number_each() -> BaseBuilder {
    BaseBuilder {
        users: vec![user(&[0]); 6],
        group_clauses: (1..16).map(|p| GroupClause::new(p, &[(0, 4, p)])).collect(),
        policies: (0..16)
            .map(|p| Policy::new(0, p, 1, 0, NO_CONTEXT))
            .collect(),
        ..BaseBuilder::new(1).with_permissions(16)
    }
}

#[test]
fn each_permission_has_its_own_part() {
    let numbers = [0, 1, 2, 3, 4, 5, 6, 0, 0, 0, 0, 0, 0, 0, 0, 0];
    expect_numbers(&one_number_each(), &numbers);
    let mut base = one_number_each();
    for clause in &mut base.group_clauses {
        clause.permission = 16 - clause.permission;
    }
    let numbers = [0, 0, 0, 0, 0, 0, 0, 0, 0, 0, 6, 5, 4, 3, 2, 1];
    expect_numbers(&base, &numbers);
}

/// Only the first six users make a group of six.
#[test]
fn a_record_of_six_entries_has_no_byte_left() {
    let mut out = [7; 16 * RECORD];
    let at = library_context(at_minute(600));
    let answer = release::answers::report(&one_number_each().bytes(), at, &mut out);
    assert_eq!((answer.refusal, answer.count), (0, 6));
    let record = &out[6 * RECORD..7 * RECORD];
    assert_eq!(record, [6, 0, 0, 1, 0, 2, 0, 3, 0, 4, 0, 5, 0]);
}

/// The buffer isn't read: a report over an earlier one is the same.
#[test]
fn a_report_over_a_report_is_the_same() {
    let (base, at) = (one_number_each().bytes(), library_context(at_minute(600)));
    let mut out = [7; 16 * RECORD];
    let first = release::answers::report(&base, at, &mut out);
    let written = out;
    assert_eq!(release::answers::report(&base, at, &mut out), first);
    assert_eq!(out, written);
}
