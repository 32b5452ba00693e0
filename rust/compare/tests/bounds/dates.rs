//! Users' days play no part in a bound, and 24 doesn't refuse it.

use crate::setups::*;
use compare::bounds::{expect_bound, Changed};
use compare::builder::*;
use compare::expect_decision;
use compare::questions::{at_date, Asked};
use compare::shop::small_shop;

/// The small shop, whose users have this day alone.
fn shop_of_one_day(day: u16) -> BaseBuilder {
    let mut shop = small_shop();
    for user in &mut shop.users {
        user.set_days(day, day);
    }
    shop
}

/// The clerk's policy of weight 1 counts for all four roles held.
#[test]
fn a_group_out_of_date_has_its_bound() {
    let group = [MANAGER, BUYER, CLERK, OTHER_CLERK];
    for day in [0, 1, 300, 65_535] {
        let shop = shop_of_one_day(day);
        expect(&shop, 2, 5, &group, 16);
        expect(&shop, 1, 5, &group, 8);
        expect(&shop, 0, 5, &group, 2);
        let asked = Asked::new(0, at_date(600, 2), &group);
        expect_decision(&shop.bytes(), &asked, 24);
    }
}

/// On no date can they stand together.
#[test]
fn a_group_of_days_that_do_not_meet_has_its_bound() {
    let mut shop = small_shop();
    shop.users[0].set_days(0, 299);
    shop.users[2].set_days(300, 65_535);
    expect(&shop, 2, 3, &[MANAGER, CLERK], 4);
    for date in [299, 300] {
        let asked = Asked::new(0, at_date(600, date), &[MANAGER, CLERK]);
        expect_decision(&shop.bytes(), &asked, 24);
    }
}

#[test]
fn refusals_12_to_15_and_21_are_the_same_out_of_date() {
    let shop = shop_of_one_day(300);
    for (refusal, entries) in [
        (12, &[][..]),
        (13, &[MANAGER, [4, 2]]),
        (14, &[MANAGER, [0, 1]]),
        (15, &[MANAGER, [2, 1]]),
        (21, &[MANAGER, CLERK]),
    ] {
        expect_refused(&shop, 3, 1, entries, refusal);
        expect_refused(&shop, 0, 6, entries, refusal);
    }
    expect(&shop, 0, 3, &[MANAGER, CLERK], 0);
}

#[test]
fn turned_days_and_the_old_form_refuse_the_base() {
    let changed = Changed::new(0, 1, &[MANAGER]);
    let mut turned = small_shop();
    turned.users[3].set_days(1, 0);
    expect_bound(&turned.bytes(), &changed, (5, 0));
    expect_bound(&small_shop().old_bytes(OLD_LETTERS), &changed, (2, 0));
    expect_bound(&small_shop().old_bytes(LETTERS), &changed, (3, 0));
}
