//! Users' days and the date: refusal 24, behind 15 and before 16. Where nothing
//! else is said, a user has all days.

use crate::setups::*;
use compare::builder::*;
use compare::expect_decision;
use compare::questions::{at_date, Asked};
use compare::shop::small_shop;
use model::Context;

/// The small shop with these days of some users: user, first, last.
fn shop_with_days(days: &[(usize, u16, u16)]) -> BaseBuilder {
    let mut shop = small_shop();
    for &(user, first, last) in days {
        shop.users[user].set_days(first, last);
    }
    shop
}

/// Expects this answer for permission 0 at minute 600 on a date.
fn expect_on(date: u32, base: &BaseBuilder, entries: &[[u8; 2]], answer: u8) {
    let asked = Asked::new(0, at_date(600, date), entries);
    expect_decision(&base.bytes(), &asked, answer);
}

/// Expects these answers for manager and clerk on some dates, if the manager or
/// the clerk has these days: they are granted on every date of theirs.
fn expect_answers(first: u16, last: u16, answers: &[(u32, u8)]) {
    for user in [0, 2] {
        let shop = shop_with_days(&[(user, first, last)]);
        for &(date, answer) in answers {
            expect_on(date, &shop, &[MANAGER, CLERK], answer);
            expect_on(date, &shop, &[CLERK, MANAGER], answer);
        }
    }
}

#[test]
fn first_day_last_day_and_date_are_one() {
    expect_answers(300, 300, &[(299, 24), (300, 0), (301, 24)]);
    expect_answers(1, 1, &[(0, 24), (1, 0), (2, 24)]);
    expect_answers(65_534, 65_534, &[(65_533, 24), (65_534, 0), (65_535, 24)]);
}

#[test]
fn both_days_are_included() {
    let answers = [(298, 24), (299, 24), (300, 0), (301, 0)];
    expect_answers(300, 310, &answers);
    let answers = [(309, 0), (310, 0), (311, 24), (312, 24)];
    expect_answers(300, 310, &answers);
    expect_answers(300, 310, &[(0, 24), (305, 0), (65_535, 24)]);
}

#[test]
fn two_days_beside_each_other() {
    for first in [1, 254, 255, 32_767, 65_533] {
        let date = u32::from(first);
        let answers = [(date - 1, 24), (date, 0), (date + 1, 0), (date + 2, 24)];
        expect_answers(first, first + 1, &answers);
    }
}

#[test]
fn the_first_of_all_days_alone() {
    expect_answers(0, 0, &[(0, 0), (1, 24), (256, 24), (65_535, 24)]);
}

#[test]
fn the_last_of_all_days_alone() {
    let answers = [(65_535, 0), (65_534, 24), (255, 24), (0, 24)];
    expect_answers(65_535, 65_535, &answers);
}

#[test]
fn all_days_include_every_date() {
    for date in [0, 1, 255, 256, 32_767, 32_768, 65_534, 65_535] {
        expect_answers(0, 65_535, &[(date, 0)]);
    }
}

#[test]
fn days_up_to_one_and_from_one_on() {
    expect_answers(0, 300, &[(0, 0), (300, 0), (301, 24), (65_535, 24)]);
    expect_answers(300, 65_535, &[(0, 24), (299, 24), (300, 0), (65_535, 0)]);
}

/// 0x0100 to 0x01ff. With the bytes of date or days in the other order 0x0001
/// would be inside, or 0xff01.
#[test]
fn both_bytes_of_days_and_dates_count() {
    let answers = [(0x00ff, 24), (0x0100, 0), (0x01ff, 0), (0x0200, 24)];
    expect_answers(0x0100, 0x01ff, &answers);
    expect_answers(0x0100, 0x01ff, &[(0x0001, 24), (0xff01, 24), (0x0110, 0)]);
}

#[test]
fn date_65535_is_the_last_in_range() {
    expect_answers(0, 65_535, &[(65_535, 0), (65_536, 11)]);
    expect_answers(300, 300, &[(65_535, 24), (65_536, 11)]);
}

/// 65,836 would be 300 if it were cut to two bytes, and 2^24 would be 0.
#[test]
fn a_date_is_not_cut() {
    expect_answers(300, 300, &[(65_536 + 300, 11), ((1 << 31) + 300, 11)]);
    expect_answers(0, 0, &[(65_536, 11), (1 << 24, 11)]);
    expect_answers(0, 65_535, &[(u32::MAX, 11)]);
}

/// Six users act in the one role there is.
#[test]
fn the_user_of_each_entry_counts() {
    let group: Vec<[u8; 2]> = (0..6).map(|user| [user, 0]).collect();
    for place in 0..6 {
        let mut base = open_base(1);
        base.users[place].set_days(300, 300);
        expect_on(299, &base, &group, 24);
        expect_on(300, &base, &group, 0);
        expect_on(301, &base, &group, 24);
    }
}

/// User 6 stands in no entry.
#[test]
fn the_days_of_users_in_no_entry_do_not_count() {
    let group: Vec<[u8; 2]> = (0..6).map(|user| [user, 0]).collect();
    let mut base = open_base(1);
    base.users[6].set_days(300, 300);
    expect_on(299, &base, &group, 0);
    expect_on(299, &base, &[[6, 0]], 24);
    expect_on(299, &base, &group[..1], 0);
}

#[test]
fn another_user_in_the_role_of_one_who_is_out_of_date() {
    let shop = shop_with_days(&[(2, 0, 299)]);
    expect_on(300, &shop, &[MANAGER, CLERK], 24);
    expect_on(300, &shop, &[MANAGER, OTHER_CLERK], 0);
    expect_on(300, &shop, &[MANAGER, OTHER_CLERK, CLERK], 24);
    expect_on(299, &shop, &[MANAGER, CLERK], 0);
}

#[test]
fn days_that_meet_on_one_date() {
    let shop = shop_with_days(&[(0, 0, 300), (2, 300, 65_535)]);
    expect_on(299, &shop, &[MANAGER, CLERK], 24);
    expect_on(300, &shop, &[MANAGER, CLERK], 0);
    expect_on(301, &shop, &[MANAGER, CLERK], 24);
}

#[test]
fn days_that_do_not_meet() {
    let shop = shop_with_days(&[(0, 0, 299), (2, 300, 65_535)]);
    for date in [0, 299, 300, 65_535] {
        expect_on(date, &shop, &[MANAGER, CLERK], 24);
    }
}

/// The manager, who acts as buyer, has the manager's days.
#[test]
fn who_acts_below_has_the_same_days() {
    let shop = shop_with_days(&[(0, 300, 300), (1, 0, 299)]);
    let group = [[0, 1], CLERK];
    expect_on(299, &shop, &group, 24);
    expect_on(300, &shop, &group, 17);
    expect_on(301, &shop, &group, 24);
}

/// Nobody holds the clerk's role on the date, but its policy still adds to the
/// weights of manager and buyer: 5 and 2.
#[test]
fn a_roles_weight_does_not_depend_on_days() {
    let mut shop = shop_with_days(&[(2, 0, 0), (3, 0, 0)]);
    shop.group_clauses = vec![GroupClause::new(0, &[(1, 4, 7)])];
    expect_on(300, &shop, &[MANAGER, BUYER], 0);
    shop.group_clauses = vec![GroupClause::new(0, &[(1, 4, 5)])];
    expect_on(300, &shop, &[MANAGER], 0);
}

/// On the small shop's date 300 the buyer's days are over. At minute 480 the
/// clerk has no weight.
fn buyer_gone() -> BaseBuilder {
    shop_with_days(&[(1, 0, 299)])
}

/// Expects this answer at minute 480 on date 300, and for the group from its end.
fn expect_gone(entries: &[[u8; 2]], answer: u8) {
    let reversed: Vec<[u8; 2]> = entries.iter().rev().copied().collect();
    for entries in [entries, &reversed] {
        let asked = Asked::new(0, at_date(480, 300), entries);
        expect_decision(&buyer_gone().bytes(), &asked, answer);
    }
}

#[test]
fn refusal_24_beats_16() {
    expect_gone(&[CLERK, BUYER], 24);
    expect_gone(&[CLERK, MANAGER, OTHER_CLERK, BUYER], 24);
    expect_gone(&[CLERK, MANAGER], 16);
}

/// The buyer as clerk, who would have no weight.
#[test]
fn refusal_24_beats_16_of_the_same_entry() {
    expect_gone(&[[1, 2]], 24);
    expect_gone(&[[1, 2], MANAGER], 24);
}

#[test]
fn refusal_24_beats_17() {
    expect_gone(&[BUYER], 24);
    expect_gone(&[BUYER, MANAGER], 24);
    expect_gone(&[MANAGER], 17);
    let mut shop = buyer_gone();
    shop.group_clauses.clear();
    expect_on(300, &shop, &[BUYER, MANAGER], 24);
    expect_on(299, &shop, &[BUYER, MANAGER], 17);
}

/// A clerk as buyer.
#[test]
fn refusal_15_beats_24() {
    expect_gone(&[BUYER, [2, 1]], 15);
    expect_gone(&[BUYER, MANAGER, [3, 0]], 15);
}

/// The buyer as manager.
#[test]
fn refusal_15_beats_24_of_the_same_entry() {
    expect_gone(&[[1, 0]], 15);
    expect_gone(&[MANAGER, [1, 0]], 15);
}

#[test]
fn a_user_without_roles_gets_15_whatever_the_days() {
    let mut shop = shop_with_days(&[(2, 300, 300)]);
    shop.users[2].parameter = 1;
    for date in [299, 300, 301] {
        expect_on(date, &shop, &[MANAGER, CLERK], 15);
    }
}

#[test]
fn refusal_14_beats_24() {
    expect_gone(&[BUYER, BUYER], 14);
    expect_gone(&[BUYER, [1, 2]], 14);
    expect_gone(&[BUYER, MANAGER, MANAGER], 14);
}

#[test]
fn refusal_13_beats_24() {
    expect_gone(&[BUYER, [4, 2]], 13);
    expect_gone(&[BUYER, [2, 3]], 13);
    expect_gone(&[[1, 3]], 13);
}

#[test]
fn refusal_12_beats_24() {
    for group in [&[][..], &[1], &[1, 1, 0], &[1; 13], &[1; 14]] {
        let asked = Asked {
            permission: 0,
            at: at_date(480, 300),
            group: group.to_vec(),
        };
        expect_decision(&buyer_gone().bytes(), &asked, 12);
    }
}

#[test]
fn refusal_11_beats_24() {
    let asked = |at| Asked::new(0, at, &[BUYER]);
    let base = buyer_gone().bytes();
    for date in [65_536, 65_536 + 299, u32::MAX] {
        expect_decision(&base, &asked(at_date(480, date)), 11);
    }
    expect_decision(&base, &asked(at_date(1440, 300)), 11);
    expect_decision(&base, &asked(at_date(1439, 300)), 24);
}

#[test]
fn refusal_10_beats_11_of_a_date() {
    let base = buyer_gone().bytes();
    for permission in [1, 255, 256, 65_536] {
        for date in [299, 300, 65_536] {
            let asked = Asked::new(permission, at_date(480, date), &[BUYER]);
            expect_decision(&base, &asked, 10);
        }
    }
    let asked = Asked::new(0, at_date(480, 65_536), &[]);
    expect_decision(&base, &asked, 11);
}

#[test]
fn refusals_1_to_9_beat_24() {
    let mut shop = buyer_gone();
    shop.users[3].set_days(1, 0);
    expect_on(300, &shop, &[BUYER], 5);
    let asked = Asked::new(0, at_date(480, 300), &[BUYER]);
    expect_decision(&buyer_gone().old_bytes(OLD_LETTERS), &asked, 2);
    expect_decision(&buyer_gone().old_bytes(LETTERS), &asked, 3);
}

/// With each fault removed the next one is named.
#[test]
fn with_all_faults_of_entries_the_first_is_named_and_then_the_next() {
    let (absent, as_senior, no_weight) = ([4, 2], [2, 1], [3, 2]);
    let faults = [BUYER, no_weight, as_senior, MANAGER, MANAGER, absent];
    expect_gone(&faults, 13);
    expect_gone(&faults[..5], 14);
    expect_gone(&faults[..4], 15);
    expect_gone(&faults[..2], 24);
    expect_gone(&faults[1..2], 16);
    expect_gone(&faults[3..4], 17);
}

/// Days 5 to 6: neither the day of the week nor the minute is the date.
#[test]
fn the_date_is_neither_the_day_nor_the_minute() {
    let shop = shop_with_days(&[(0, 5, 6)]);
    for (minute, day, date, answer) in [
        (600, 0, 5, 0),
        (600, 5, 5, 0),
        (600, 5, 0, 24),
        (600, 6, 600, 24),
        (1439, 0, 6, 0),
    ] {
        let at = Context {
            minute,
            day,
            zone: 0,
            date,
        };
        let asked = Asked::new(0, at, &[MANAGER, BUYER]);
        expect_decision(&shop.bytes(), &asked, answer);
    }
}

/// Policies issued on the last of all days count on every date.
#[test]
fn a_policys_issue_day_is_no_users_day() {
    let mut shop = small_shop();
    for policy in &mut shop.policies {
        policy.issue_day = 65_535;
    }
    for date in [0, 300, 65_534, 65_535] {
        expect_on(date, &shop, &[MANAGER, CLERK], 0);
    }
}

/// Marked cases 4 to 8.
#[test]
fn the_marked_cases_hold_on_every_date() {
    let shop = small_shop();
    for date in [0, 1, 255, 256, 32_767, 32_768, 65_534, 65_535] {
        expect_on(date, &shop, &[MANAGER], 17);
        expect_on(date, &shop, &[MANAGER, CLERK], 0);
        expect_on(date, &shop, &[BUYER, CLERK, OTHER_CLERK], 17);
        expect_on(date, &shop, &[MANAGER, MANAGER], 14);
        expect_on(date, &shop, &[MANAGER, [2, 1]], 15);
        let early = Asked::new(0, at_date(480, date), &[MANAGER, CLERK]);
        expect_decision(&shop.bytes(), &early, 16);
    }
}

/// The last of 24 users.
#[test]
fn the_last_users_days() {
    let mut base = open_base(1);
    base.users = vec![User::always(3); 24];
    base.users[23].set_days(300, 65_535);
    expect_on(299, &base, &[[23, 0]], 24);
    expect_on(300, &base, &[[23, 0]], 0);
    expect_on(299, &base, &[[22, 0]], 0);
}
