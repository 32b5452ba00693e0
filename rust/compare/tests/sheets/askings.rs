//! Asking: the decision for the sheet's permission and the entries it holds.

use crate::setups::*;
use compare::builder::ContextClause;
use compare::questions::{at_minute, SOME_DATE};
use compare::shop::small_shop;
use model::Context;

#[test]
fn an_unsigned_sheet_gets_12() {
    let base = open_base().bytes();
    for permission in [0, 1] {
        expect_ask(&base, sheet(permission, &[]), 12);
    }
    for minute in [0, 1439] {
        expect_ask_at(&base, at_minute(minute), sheet(0, &[]), 12);
    }
}

/// Whatever stands behind the two first bytes.
#[test]
fn an_unsigned_sheet_gets_12_though_its_unused_bytes_are_entries() {
    let mut unsigned = sheet(0, &[0, 1, 2, 3, 4, 5].map(|user| [user, 0]));
    unsigned[1] = 0;
    expect_ask(&open_base().bytes(), unsigned, 12);
    expect_ask(&open_base().bytes(), claiming(0), 12);
}

#[test]
fn a_sheet_for_255_gets_10() {
    let base = open_base().bytes();
    expect_ask(&base, sheet(255, &[]), 10);
    expect_ask(&base, sheet(255, &[[0, 0]]), 10);
    expect_ask(&base, sheet(255, &[[200, 100]]), 10);
}

#[test]
fn a_sheet_for_255_gets_10_in_a_context_out_of_range() {
    let base = open_base().bytes();
    for (minute, day, zone, date) in [
        (1440, 0, 0, 0),
        (0, 7, 0, 0),
        (0, 0, 256, 0),
        (0, 0, 0, 65_536),
        (u32::MAX, 0, 0, 0),
    ] {
        let at = Context {
            minute,
            day,
            zone,
            date,
        };
        expect_ask_at(&base, at, sheet(255, &[]), 10);
        expect_ask_at(&base, at, sheet(255, &[[0, 0]]), 10);
        expect_ask_at(&base, at, sheet(0, &[]), 11);
        expect_ask_at(&base, at, sheet(0, &[[0, 0]]), 11);
    }
}

#[test]
fn the_permission_is_the_sheets() {
    let mut base = open_base();
    base.group_clauses[1].conditions[0] = (0, 4, 2);
    for (permission, answer) in [(0, 0), (1, 17), (2, 10), (254, 10)] {
        let signed = sheet(permission, &[[0, 0]]);
        expect_ask(&base.bytes(), signed, answer);
    }
    expect_ask(&base.bytes(), sheet(1, &[[0, 0], [1, 0]]), 0);
}

#[test]
fn as_many_entries_are_asked_about_as_are_held() {
    let all = [0, 1, 2, 3, 4, 5].map(|user| [user, 1]);
    for held in 1..=6 {
        let mut base = open_base();
        base.group_clauses[0].conditions[0] = (0, 4, held as u8);
        expect_ask(&base.bytes(), sheet(0, &all[..held]), 0);
        base.group_clauses[0].conditions[0] = (0, 5, held as u8);
        expect_ask(&base.bytes(), sheet(0, &all[..held]), 17);
    }
}

/// The bytes behind the entries held are those of users who aren't there.
#[test]
fn unused_bytes_change_no_answer() {
    let base = open_base().bytes();
    for held in 1..6 {
        let mut sheet = claiming(held);
        for place in 0..held {
            sheet = with_entry(sheet, place.into(), [place, 2]);
        }
        expect_ask(&base, sheet, 0);
        sheet[1] += 1;
        expect_ask(&base, sheet, 13);
    }
}

/// The small shop: minute 600 gives weights 5, 2 and 1, minute 480 gives 4, 1
/// and 0.
#[test]
fn the_small_shops_sheet_fills() {
    let shop = small_shop().bytes();
    let early = at_minute(480);
    expect_ask(&shop, sheet(0, &[CLERK]), 17);
    expect_ask(&shop, sheet(0, &[CLERK, BUYER]), 17);
    expect_ask(&shop, sheet(0, &[CLERK, BUYER, MANAGER]), 0);
    expect_ask(&shop, sheet(0, &[CLERK, MANAGER]), 0);
    expect_ask_at(&shop, early, sheet(0, &[CLERK, MANAGER]), 16);
    expect_ask_at(&shop, early, sheet(0, &[BUYER, MANAGER]), 0);
}

#[test]
fn minute_day_and_zone_come_in_order() {
    let mut base = open_base();
    base.context_clauses = vec![ContextClause::new(0, &[(0, 4, 5), (1, 4, 6), (2, 4, 7)])];
    base.policies[0].context = 0;
    let signed = sheet(0, &[[0, 0]]);
    for (minute, day, zone, answer) in [(5, 6, 7, 0), (6, 5, 7, 16), (5, 7, 6, 11), (7, 6, 5, 16)] {
        let at = Context {
            minute,
            day,
            zone,
            date: SOME_DATE,
        };
        expect_ask_at(&base.bytes(), at, signed, answer);
    }
}

#[test]
fn any_bytes_get_the_decision_for_them() {
    let base = open_base().bytes();
    let [noise, inverse, zeros, ones] = noisy_sheets();
    expect_ask(&base, noise, 10);
    expect_ask(&base, inverse, 10);
    expect_ask(&base, zeros, 12);
    expect_ask(&base, ones, 10);
    expect_ask(&base, [1; 14], 0);
    expect_ask(&base, [1, 2, 0, 0, 0, 0, 0, 0, 0, 0, 0, 0, 0, 0], 14);
}
