//! The order of refusals: with two faults present the earlier one is named.

use crate::setups::*;
use compare::builder::BaseBuilder;
use compare::questions::at_minute;
use compare::shop::small_shop;

/// Users 6 and 7 hold role 0 alone.
fn base() -> Vec<u8> {
    let mut base = open_base();
    base.users[6].parameter = 3;
    base.users[7].parameter = 3;
    base.bytes()
}

/// Six of the eight users: 0 to 4 and 6.
fn full() -> [u8; 14] {
    sheet(0, &[0, 1, 2, 3, 4, 6].map(|user| [user, 0]))
}

#[test]
fn refusals_1_to_9_beat_13() {
    for (refusal, base) in (1..).zip(refused_bases()) {
        expect_refused(&base, 4, 0, sheet(0, &[]), refusal);
        expect_refused(&base, 0, 256, sheet(0, &[]), refusal);
    }
    expect_refused(&small_shop().bytes(), 4, 0, sheet(0, &[]), 13);
}

#[test]
fn refusals_1_to_9_beat_14_15_and_20() {
    for (refusal, base) in (1..).zip(refused_bases()) {
        expect_refused(&base, 0, 0, full(), refusal);
        expect_refused(&base, 2, 1, full(), refusal);
        expect_refused(&base, 2, 2, full(), refusal);
    }
}

/// The user stands on the sheet, but the role isn't there.
#[test]
fn refusal_13_beats_14() {
    let signed = sheet(0, &[[6, 0]]);
    expect_refused(&base(), 6, 3, signed, 13);
    expect_refused(&base(), 6, 256, signed, 13);
    expect_refused(&base(), 6, 0, signed, 14);
}

/// User 200 stands on the sheet, but isn't there any more.
#[test]
fn refusal_13_beats_14_of_a_user_who_is_gone() {
    expect_refused(&base(), 200, 0, sheet(0, &[[200, 0]]), 13);
}

#[test]
fn refusal_14_beats_15() {
    expect_refused(&base(), 6, 1, sheet(0, &[[6, 0]]), 14);
    expect_refused(&base(), 6, 1, sheet(0, &[]), 15);
}

#[test]
fn a_full_sheet_gets_13_then_14_then_15_then_20() {
    expect_refused(&base(), 6, 3, full(), 13);
    expect_refused(&base(), 8, 0, full(), 13);
    expect_refused(&base(), 256, 0, full(), 13);
    expect_refused(&base(), 6, 1, full(), 14);
    expect_refused(&base(), 6, 0, full(), 14);
    expect_refused(&base(), 0, 2, full(), 14);
    expect_refused(&base(), 7, 1, full(), 15);
    expect_refused(&base(), 7, 2, full(), 15);
    expect_refused(&base(), 7, 0, full(), 20);
    expect_refused(&base(), 5, 2, full(), 20);
}

/// Asking: 1 to 9, then 10, then 11, then 12.
#[test]
fn asking_an_unsigned_sheet_names_the_first() {
    for (refusal, base) in (1..).zip(refused_bases()) {
        expect_ask_at(&base, at_minute(1440), sheet(255, &[]), refusal);
        expect_ask_at(&base, at_minute(600), sheet(0, &[]), refusal);
    }
    expect_ask_at(&base(), at_minute(1440), sheet(255, &[]), 10);
    expect_ask_at(&base(), at_minute(1440), sheet(0, &[]), 11);
    expect_ask_at(&base(), at_minute(1439), sheet(0, &[]), 12);
}

/// Asking: 13, 14, 15 over all entries before the next, then 16, then 17.
#[test]
fn asking_a_signed_sheet_names_the_first() {
    let entries = [[7, 0], [6, 1], [7, 2], [8, 0]];
    expect_ask(&base(), sheet(0, &entries), 13);
    expect_ask(&base(), sheet(0, &entries[..3]), 14);
    expect_ask(&base(), sheet(0, &entries[..2]), 15);
    expect_ask(&base(), sheet(0, &entries[..1]), 0);
    let mut without_weight = open_base();
    without_weight.policies.remove(0);
    without_weight.group_clauses.clear();
    expect_ask(&without_weight.bytes(), sheet(0, &[[7, 0]]), 16);
    expect_ask(&without_weight.bytes(), sheet(0, &[[7, 1]]), 17);
    let nothing = BaseBuilder::new(3).with_permissions(1);
    expect_ask(&nothing.bytes(), sheet(0, &[[7, 1]]), 13);
}
