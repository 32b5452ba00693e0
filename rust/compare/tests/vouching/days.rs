//! A statement's days and the date: both days are included. Where nothing else is
//! said, users have all days.

use crate::setups::*;
use compare::questions::{at_date, Asked};
use compare::shop::small_shop;
use compare::{expect_decision_vouched, expect_report_vouched_refused};

/// Expects the small shop's answers for manager and clerk, whose statement has these
/// days, and the manager's numbers, on dates.
fn expect_answers(first: u16, last: u16, answers: &[(u32, u8)]) {
    let trust = at_3(&[says(2, 0, 3).on(first, last)]);
    for &(date, answer) in answers {
        expect_on(date, &small_shop(), &trust, &[MANAGER, CLERK], answer);
        let k = if answer == 0 { 2 } else { 0 };
        expect_numbers_on(date, &small_shop(), &trust, 0, &[k]);
    }
}

#[test]
fn both_days_are_included() {
    let answers = [(299, 26), (300, 0), (301, 0), (309, 0), (310, 0), (311, 26)];
    expect_answers(300, 310, &answers);
}

#[test]
fn one_day_alone() {
    for day in [1, 255, 256, 300, 32_768, 65_534] {
        let date = u32::from(day);
        expect_answers(day, day, &[(date - 1, 26), (date, 0), (date + 1, 26)]);
    }
}

#[test]
fn the_first_and_the_last_of_all_days() {
    expect_answers(0, 0, &[(0, 0), (1, 26), (256, 26), (65_535, 26)]);
    let answers = [(65_535, 0), (65_534, 26), (255, 26), (0, 26)];
    expect_answers(65_535, 65_535, &answers);
    for date in [0, 1, 255, 256, 32_767, 32_768, 65_534, 65_535] {
        expect_answers(0, 65_535, &[(date, 0)]);
    }
}

/// 0x0100 to 0x01ff. With the bytes of date or days in the other order 0x0001
/// would be inside, or 0xff01.
#[test]
fn both_bytes_of_days_and_dates_count() {
    let answers = [(0x00ff, 26), (0x0100, 0), (0x01ff, 0), (0x0200, 26)];
    expect_answers(0x0100, 0x01ff, &answers);
    expect_answers(0x0100, 0x01ff, &[(0x0001, 26), (0xff01, 26), (0x0110, 0)]);
}

/// 65,836 would be 300 if it were cut to two bytes.
#[test]
fn a_date_out_of_range_is_refused() {
    let trust = at_3(&[says(2, 0, 3).on(300, 300)]);
    let base = small_shop().bytes();
    for date in [65_536, 65_536 + 300, (1 << 31) + 300, u32::MAX] {
        let asked = Asked::new(0, at_date(600, date), &[MANAGER, CLERK]);
        expect_decision_vouched(&base, &trust, &asked, 11);
        expect_report_vouched_refused(&base, at_date(600, date), &trust, 0, 13, 11);
    }
}

#[test]
fn statements_whose_days_follow_each_other() {
    let trust = at_3(&[says(2, 0, 3).on(10, 19), says(2, 0, 3).on(21, 30)]);
    for (date, answer) in [
        (9, 26),
        (10, 0),
        (19, 0),
        (20, 26),
        (21, 0),
        (30, 0),
        (31, 26),
    ] {
        expect_on(date, &small_shop(), &trust, &[MANAGER, CLERK], answer);
    }
}

/// The clerk is there on days 300 to 310, the statement is valid on 305 to 320.
#[test]
fn users_days_and_a_statements_days_both_count() {
    let mut shop = small_shop();
    shop.users[2].set_days(300, 310);
    let trust = at_3(&[says(2, 0, 3).on(305, 320)]);
    for (date, answer) in [
        (299, 24),
        (300, 26),
        (304, 26),
        (305, 0),
        (310, 0),
        (311, 24),
    ] {
        expect_on(date, &shop, &trust, &[MANAGER, CLERK], answer);
        let k = if answer == 0 { 2 } else { 0 };
        expect_numbers_on(date, &shop, &trust, 0, &[k]);
    }
}

/// Each of six others vouches up to the day of the user's number.
#[test]
fn the_smallest_number_is_gone_with_the_last_who_vouches() {
    let mut statements = Vec::new();
    for user in 1..=6 {
        statements.push(says(user, 0, 5).on(0, user.into()));
    }
    let trust = at_3(&statements);
    for entries in 1..=6_u8 {
        let base = alike(7, &[(0, 4, entries)]);
        for date in 0..=7 {
            let vouching = 7 - date.max(1);
            let enough = u32::from(entries) <= 1 + vouching;
            let k = if enough { entries } else { 0 };
            expect_numbers_on(date, &base, &trust, 0, &[k]);
        }
    }
}

#[test]
fn a_policys_or_users_days_are_no_statements_days() {
    let mut shop = small_shop();
    for policy in &mut shop.policies {
        policy.issue_day = 65_535;
    }
    let trust = at_3(&[says(2, 0, 3).on(5, 6)]);
    for (date, answer) in [(4, 26), (5, 0), (6, 0), (7, 26), (600, 26)] {
        expect_on(date, &shop, &trust, &[MANAGER, CLERK], answer);
    }
}
