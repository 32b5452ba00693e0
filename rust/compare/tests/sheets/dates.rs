//! Users' days: signing and withdrawing know none, asking does.

use crate::setups::*;
use compare::builder::*;
use compare::questions::at_date;
use compare::sheets::{expect_call, SheetCall};
use compare::shop::small_shop;
use model::Sheet;

/// Expects this answer at minute 600 on a date.
fn expect_ask_on(date: u32, base: &BaseBuilder, sheet: Sheet, answer: u8) {
    expect_ask_at(&base.bytes(), at_date(600, date), sheet, answer);
}

/// Eight users who hold each of three roles; users 0 to 4 have few days.
fn base() -> BaseBuilder {
    let mut base = open_base();
    let days = [(0, 0), (1, 1), (300, 300), (0, 299), (65_535, 65_535)];
    for (user, (first, last)) in base.users.iter_mut().zip(days) {
        user.set_days(first, last);
    }
    base
}

#[test]
fn a_signing_is_accepted_whatever_the_days() {
    let bytes = base().bytes();
    for user in 0..8 {
        for role in 0..3 {
            let after = sheet(0, &[[user, role]]);
            expect_signed(&bytes, user.into(), role.into(), sheet(0, &[]), after);
        }
    }
}

/// Users 0 and 4 can never be asked about on one date.
#[test]
fn those_whose_days_do_not_meet_sign_one_sheet() {
    let bytes = base().bytes();
    let all = [4, 0, 2, 3, 1, 5].map(|user| [user, 0]);
    for signed in 0..6 {
        let [user, role] = all[signed].map(u32::from);
        let (before, after) = (sheet(1, &all[..signed]), sheet(1, &all[..=signed]));
        expect_signed(&bytes, user, role, before, after);
    }
    for date in [0, 1, 300, 65_535] {
        expect_ask_on(date, &base(), sheet(1, &all), 24);
    }
}

#[test]
fn who_is_out_of_date_signs_and_is_refused_when_asked() {
    let signed = sheet(0, &[[2, 0]]);
    expect_signed(&base().bytes(), 2, 0, sheet(0, &[]), signed);
    for (date, answer) in [(0, 24), (299, 24), (300, 0), (301, 24), (65_535, 24)] {
        expect_ask_on(date, &base(), signed, answer);
    }
}

#[test]
fn asking_looks_at_every_entry_held() {
    let users = [5, 6, 7, 3, 2, 0];
    for held in 1..=6 {
        let entries = users.map(|user| [user, 1]);
        let signed = sheet(0, &entries[..held]);
        let answer = |refused_from| if held >= refused_from { 24 } else { 0 };
        expect_ask_on(299, &base(), signed, answer(5));
        expect_ask_on(300, &base(), signed, answer(4));
        expect_ask_on(0, &base(), signed, answer(5));
        expect_ask_on(2, &base(), signed, answer(5));
    }
}

/// The bytes behind are those of a user out of date.
#[test]
fn entries_that_are_not_held_have_no_days() {
    let mut signed = sheet(0, &[[5, 0], [2, 0]]);
    expect_ask_on(299, &base(), signed, 24);
    signed[1] = 1;
    expect_ask_on(299, &base(), signed, 0);
}

#[test]
fn a_sheet_that_claims_over_six_is_asked_about_its_first_six() {
    for claimed in [6, 7, 255] {
        let users = [5, 6, 7, 0, 1, 2];
        let mut signed = sheet(0, &users.map(|user| [user, 0]));
        signed[1] = claimed;
        expect_ask_on(300, &base(), signed, 24);
    }
}

/// Refusals 13 to 15 and 20 are the same for users of few days.
#[test]
fn a_signing_is_refused_as_before() {
    let mut base = base();
    base.users[2].parameter = 3;
    let bytes = base.bytes();
    let full = sheet(0, &[0, 1, 3, 5, 6, 7].map(|user| [user, 0]));
    expect_refused(&bytes, 8, 0, sheet(0, &[]), 13);
    expect_refused(&bytes, 2, 0, sheet(0, &[[2, 0]]), 14);
    expect_refused(&bytes, 2, 1, sheet(0, &[]), 15);
    expect_refused(&bytes, 0, 2, full, 14);
    expect_refused(&bytes, 2, 1, full, 15);
    expect_refused(&bytes, 2, 0, full, 20);
}

/// Whoever may take a signature back: user 2, user 5 and one who isn't there.
#[test]
fn a_withdrawal_knows_no_days() {
    let all = [[2, 0], [5, 1], [200, 7]];
    expect_withdrawn(2, sheet(0, &all), sheet(0, &all[1..]));
    expect_withdrawn(5, sheet(0, &all), sheet(0, &[all[0], all[2]]));
    expect_withdrawn(200, sheet(0, &all), sheet(0, &all[..2]));
    expect_no_entry(3, sheet(0, &all));
}

#[test]
fn a_sheet_is_granted_when_those_out_of_date_have_withdrawn() {
    let base = base();
    let mut day = Day::new();
    day.open(&base, 0, 0);
    for user in [5, 2, 6, 4] {
        day.sign(&base, user, 0, 0);
    }
    day.ask_on(299, &base, 24);
    day.withdraw(2, 0);
    day.ask_on(299, &base, 24);
    day.withdraw(4, 0);
    day.ask_on(299, &base, 0);
    day.holds(0, &[[5, 0], [6, 0]]);
    day.sign(&base, 2, 1, 0);
    day.ask_on(299, &base, 24);
    day.ask_on(300, &base, 0);
    day.holds(0, &[[5, 0], [6, 0], [2, 1]]);
}

/// The buyer's days end while the sheet is open.
#[test]
fn days_are_those_of_the_base_that_is_asked() {
    let shop = small_shop();
    let mut ended = small_shop();
    ended.users[1].set_days(0, 299);
    let mut day = Day::new();
    day.open(&shop, 0, 0);
    day.sign(&shop, 1, 1, 0);
    day.sign(&shop, 0, 0, 0);
    day.ask_on(300, &shop, 0);
    day.ask_on(300, &ended, 24);
    day.ask_on(299, &ended, 0);
    day.sign(&ended, 1, 1, 14);
    day.ask_on(300, &shop, 0);
    day.holds(0, &[BUYER, MANAGER]);
}

#[test]
fn asking_names_the_first_refusal() {
    let mut base = base();
    base.policies.remove(0);
    base.users[6].parameter = 5;
    let (gone, no_weight, shut, absent) = ([2, 1], [5, 0], [6, 0], [8, 0]);
    let entries = [gone, no_weight, shut, [7, 1], [7, 2], absent];
    expect_ask_on(299, &base, sheet(0, &entries), 13);
    expect_ask_on(299, &base, sheet(0, &entries[..5]), 14);
    expect_ask_on(299, &base, sheet(0, &entries[..4]), 15);
    expect_ask_on(299, &base, sheet(0, &entries[..2]), 24);
    expect_ask_on(300, &base, sheet(0, &entries[..2]), 16);
    expect_ask_on(300, &base, sheet(0, &entries[..1]), 0);
    expect_ask_on(299, &base, sheet(0, &[no_weight, gone]), 24);
    expect_ask_on(299, &base, sheet(0, &[]), 12);
    base.group_clauses.clear();
    expect_ask_on(299, &base, sheet(0, &[gone]), 24);
    expect_ask_on(300, &base, sheet(0, &[gone]), 17);
}

#[test]
fn a_date_out_of_range_gets_11_behind_10() {
    let base = base();
    for date in [65_536, 65_536 + 300, u32::MAX] {
        expect_ask_on(date, &base, sheet(0, &[[2, 0]]), 11);
        expect_ask_on(date, &base, sheet(0, &[]), 11);
        expect_ask_on(date, &base, sheet(255, &[[2, 0]]), 10);
    }
    expect_ask_on(65_535, &base, sheet(0, &[[4, 0]]), 0);
}

/// A base with turned days, the old letters and the old form, with either
/// letters.
#[test]
fn misshapen_bases_are_refused() {
    let shop = small_shop();
    let mut turned = small_shop();
    turned.users[0].set_days(300, 299);
    for (base, refusal) in [
        (turned.bytes(), 5),
        (shop.bytes_with(|trailer| trailer.letters = OLD_LETTERS), 2),
        (shop.old_bytes(OLD_LETTERS), 2),
        (shop.old_bytes(LETTERS), 3),
    ] {
        expect_open(&base, 0, refusal, sheet(255, &[]));
        expect_refused(&base, 0, 0, sheet(0, &[]), refusal);
        expect_ask(&base, sheet(0, &[MANAGER, CLERK]), refusal);
        let withdrawal = SheetCall::Withdraw { user: 0 };
        expect_call(&base, withdrawal, sheet(0, &[MANAGER]), 0, sheet(0, &[]));
    }
}
