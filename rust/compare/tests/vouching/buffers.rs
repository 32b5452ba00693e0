//! The lent buffer: how long it has to be, and which bytes it gets.

use crate::setups::*;
use compare::builder::*;
use compare::calls::Report;
use compare::questions::at_minute;
use compare::shop::small_shop;
use compare::shown::RECORD;
use compare::trust::Trust;
use compare::{expect_report_vouched, expect_report_vouched_refused};

fn trust() -> Trust {
    trusted_by(&[1, 2, 3], 0)
}

#[test]
fn every_shorter_buffer_gets_19_and_no_byte() {
    for length in 0..13 {
        let base = small_shop().bytes();
        expect_report_vouched_refused(&base, at_minute(600), &trust(), 0, length, 19);
    }
}

#[test]
fn an_exact_buffer_suffices() {
    expect_report_vouched(&small_shop().bytes(), at_minute(600), &trust(), 0, 13, &[2]);
}

#[test]
fn later_bytes_keep_their_contents() {
    for length in [14, 25, 26, 27, 208, 255, 256, 70_000] {
        let base = small_shop().bytes();
        expect_report_vouched(&base, at_minute(600), &trust(), 0, length, &[2]);
        expect_report_vouched(&base, at_minute(600), &trust(), 1, length, &[0]);
    }
}

#[test]
fn one_byte_less_than_13_a_permission_gets_19() {
    for permissions in 1..=16 {
        let base = alike(2, &[(0, 4, 2)]).with_permissions(permissions).bytes();
        let whole = RECORD * permissions;
        let mut numbers = vec![0; permissions];
        numbers[0] = 2;
        let trust = trusted_by(&[1], 0);
        let at = at_minute(600);
        expect_report_vouched_refused(&base, at, &trust, 0, whole - 1, 19);
        expect_report_vouched(&base, at, &trust, 0, whole, &numbers);
        expect_report_vouched(&base, at, &trust, 0, whole + 1, &numbers);
    }
}

/// What refuses each call with the buffer that suffices.
#[test]
fn no_refusal_writes() {
    let (base, at) = (small_shop().bytes(), at_minute(600));
    let no_register = Trust {
        register: vec![2, 0, 0, 3],
        threshold: 3,
    };
    let no_threshold = Trust::new(6, &[says(2, 0, 5)]);
    for length in [13, 14, 300] {
        expect_report_vouched_refused(&base[1..], at, &trust(), 0, length, 3);
        expect_report_vouched_refused(&base, at, &no_register, 0, length, 25);
        expect_report_vouched_refused(&base, at, &no_threshold, 0, length, 27);
        expect_report_vouched_refused(&base, at_minute(1440), &trust(), 0, length, 11);
        expect_report_vouched_refused(&base, at, &trust(), 4, length, 13);
    }
}

/// The record as it is, whatever the buffer held: 6 entries leave no byte, and no
/// entry leaves twelve.
#[test]
fn a_record_is_k_entries_and_255() {
    for k in 0..=6_u8 {
        let base = alike(6, &[(0, 4, if k == 0 { 7 } else { k })]);
        let trust = trusted_by(&[0, 1, 2, 3, 4], 5);
        for before in [0, 7, 255] {
            let mut found = [before; 15];
            let report = Report::For {
                requester: 5,
                trust: &trust,
            };
            report.by_library(&base.bytes(), at_minute(600), &mut found);
            let left = 1 + 2 * usize::from(k);
            assert_eq!(found[0], k);
            assert!(k == 0 || found[1..3] == [5, 0]);
            assert!(found[left..13].iter().all(|byte| *byte == 255));
            assert_eq!(found[13..], [before; 2]);
        }
    }
}

#[test]
fn each_permission_has_its_own_part() {
    let mut base = alike(3, &[(0, 4, 2)]).with_permissions(3);
    base.group_clauses.push(GroupClause::new(2, &[(0, 4, 3)]));
    base.policies.push(Policy::new(0, 2, 1, 0, NO_CONTEXT));
    let mut statements = vec![says(1, 0, 3), says(1, 0, 3), says(2, 0, 3)];
    for statement in &mut statements[1..] {
        statement.permission = 2;
    }
    let trust = at_3(&statements);
    expect_numbers(&base, &trust, 0, &[2, 0, 3]);
    let mut found = [7; 40];
    let report = Report::For {
        requester: 0,
        trust: &trust,
    };
    report.by_library(&base.bytes(), at_minute(600), &mut found);
    assert_eq!(found[..6], [2, 0, 0, 1, 0, 255]);
    assert_eq!(found[12..15], [255, 0, 255]);
    assert_eq!(found[25..34], [255, 3, 0, 0, 1, 0, 2, 0, 255]);
    assert_eq!(found[38..], [255, 7]);
}
