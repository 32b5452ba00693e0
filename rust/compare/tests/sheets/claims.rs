//! Sheets that claim any number of entries: those that claim over six are read
//! as their first six.

use crate::setups::*;
use compare::questions::at_minute;
use compare::sheets::{expect_call, SheetCall};

/// A sheet of users 0 to 5 that claims so many.
fn of_six(count: u8) -> [u8; 14] {
    let mut sheet = sheet(0, &[0, 1, 2, 3, 4, 5].map(|user| [user, 0]));
    sheet[1] = count;
    sheet
}

#[test]
fn six_is_full_and_holds_its_sixth() {
    let base = open_base().bytes();
    expect_refused(&base, 6, 0, of_six(6), 20);
    expect_refused(&base, 5, 1, of_six(6), 14);
    expect_ask(&base, of_six(6), 0);
}

#[test]
fn five_has_room_and_does_not_hold_its_sixth() {
    let base = open_base().bytes();
    let after = with_entry(of_six(6), 5, [6, 0]);
    expect_signed(&base, 6, 0, of_six(5), after);
    let after = with_entry(of_six(6), 5, [5, 1]);
    expect_signed(&base, 5, 1, of_six(5), after);
}

#[test]
fn seven_and_255_are_read_as_six() {
    let base = open_base().bytes();
    for count in [7, 255] {
        expect_refused(&base, 6, 0, of_six(count), 20);
        for user in 0..6 {
            expect_refused(&base, user, 1, of_six(count), 14);
        }
        expect_refused(&base, 8, 0, of_six(count), 13);
        expect_ask(&base, of_six(count), 0);
    }
}

#[test]
fn every_claim_over_six_is_read_as_six() {
    let base = open_base().bytes();
    for count in 6..=255 {
        expect_refused(&base, 6, 0, of_six(count), 20);
        expect_refused(&base, 5, 0, of_six(count), 14);
        expect_ask(&base, of_six(count), 0);
    }
}

/// A condition that just five or just six entries meet.
#[test]
fn six_entries_are_asked_about() {
    for (entries, count) in [(5, 5), (6, 6), (6, 7), (6, 8), (6, 128), (6, 255)] {
        let mut base = open_base();
        base.group_clauses[0].conditions[0] = (0, 4, entries);
        expect_ask(&base.bytes(), of_six(count), 0);
        base.group_clauses[0].conditions[0] = (0, 5, entries);
        expect_ask(&base.bytes(), of_six(count), 17);
    }
}

#[test]
fn a_fault_in_the_sixth_entry_shows_from_six_on() {
    let base = open_base().bytes();
    for count in [6, 7, 255] {
        expect_ask(&base, with_entry(of_six(count), 5, [8, 0]), 13);
        expect_ask(&base, with_entry(of_six(count), 5, [0, 2]), 14);
    }
    expect_ask(&base, with_entry(of_six(5), 5, [8, 0]), 0);
    expect_ask(&base, with_entry(of_six(5), 5, [0, 2]), 0);
}

/// What is claimed stays claimed.
#[test]
fn a_refused_signing_leaves_the_claim() {
    let base = open_base().bytes();
    for count in [7, 100, 255] {
        for (user, role, refusal) in [(8, 0, 13), (7, 3, 13), (0, 1, 14), (7, 0, 20)] {
            expect_refused(&base, user, role, of_six(count), refusal);
        }
    }
    let mut base = open_base();
    base.users[7].parameter = 3;
    expect_refused(&base.bytes(), 7, 1, of_six(255), 15);
}

/// Refusals 10 and 11 don't look at the entries.
#[test]
fn a_claim_over_six_gets_10_and_11_all_the_same() {
    let base = open_base().bytes();
    for count in [7, 255] {
        let mut sheet = of_six(count);
        expect_ask_at(&base, at_minute(1440), sheet, 11);
        sheet[0] = 2;
        expect_ask_at(&base, at_minute(1440), sheet, 10);
    }
}

#[test]
fn an_opening_takes_every_claim_away() {
    let base = open_base().bytes();
    for count in 0..=255 {
        for (permission, answer, first) in [(1, 0, 1), (2, 10, 255)] {
            let call = SheetCall::Open { permission };
            expect_call(&base, call, claiming(count), answer, sheet(first, &[]));
        }
    }
}
