//! Reports consider only users whose days include the date.

use crate::setups::*;
use compare::builder::*;
use compare::questions::at_date;
use compare::shop::small_shop;
use compare::{expect_report, expect_report_refused};

/// The small shop with these days of some users: user, first, last. By day its
/// roles weigh 5, 2 and 1, and two users with a sum of 5 are needed.
fn shop_with_days(days: &[(usize, u16, u16)]) -> BaseBuilder {
    let mut shop = small_shop();
    for &(user, first, last) in days {
        shop.users[user].set_days(first, last);
    }
    shop
}

/// The base with one condition on its groups.
fn with_condition(mut base: BaseBuilder, condition: GroupCondition) -> BaseBuilder {
    base.group_clauses = vec![GroupClause::new(0, &[condition])];
    base
}

/// Two of 5 are manager and another; without the manager there are 4.
#[test]
fn the_only_group_is_out_of_date() {
    let shop = shop_with_days(&[(0, 0, 299)]);
    expect_numbers_on(299, &shop, &[2]);
    expect_numbers_on(300, &shop, &[0]);
    expect_numbers_on(65_535, &shop, &[0]);
}

#[test]
fn the_only_user_has_one_day() {
    for day in [0, 1, 255, 256, 300, 65_534, 65_535] {
        let mut base = alike(1, &[(0, 2, 1)]);
        base.users[0].set_days(day, day);
        let date = u32::from(day);
        expect_only_group_on(date, &base, &[[0, 0]]);
        let [before, far_before] = [1, 256].map(|days| date.saturating_sub(days));
        for other in [before, far_before, date + 1, date + 256, 2, 20_000] {
            if other != date && other <= 65_535 {
                expect_numbers_on(other, &base, &[0]);
            }
        }
    }
}

/// A sum of 4: the manager alone, or the buyer with both clerks.
#[test]
fn the_smallest_number_rises_when_a_users_days_end() {
    let shop = with_condition(shop_with_days(&[(0, 0, 299)]), (1, 2, 4));
    expect_only_group_on(299, &shop, &[[0, 0]]);
    expect_only_group_on(300, &shop, &[[1, 1], [2, 2], [3, 2]]);
}

/// From day to day another user's days end, and at last there is no group.
#[test]
fn the_smallest_number_rises_day_by_day() {
    let days = [(0, 0, 10), (1, 0, 11), (2, 0, 12), (3, 0, 13)];
    let shop = with_condition(shop_with_days(&days), (1, 2, 2));
    expect_numbers_on(10, &shop, &[1]);
    expect_only_group_on(11, &shop, &[[1, 1]]);
    expect_only_group_on(12, &shop, &[[2, 2], [3, 2]]);
    expect_numbers_on(13, &shop, &[0]);
    expect_numbers_on(14, &shop, &[0]);
}

#[test]
fn the_smallest_number_falls_when_a_users_days_start() {
    let shop = with_condition(shop_with_days(&[(0, 300, 65_535)]), (1, 2, 4));
    expect_numbers_on(299, &shop, &[3]);
    expect_only_group_on(300, &shop, &[[0, 0]]);
}

#[test]
fn first_day_last_day_and_date_are_one() {
    let shop = with_condition(shop_with_days(&[(0, 300, 300)]), (1, 2, 4));
    expect_numbers_on(299, &shop, &[3]);
    expect_numbers_on(300, &shop, &[1]);
    expect_numbers_on(301, &shop, &[3]);
}

#[test]
fn another_user_fills_the_role() {
    let mut base = alike(3, &[(0, 2, 2)]);
    base.users[0].set_days(0, 299);
    expect_numbers_on(299, &base, &[2]);
    expect_only_group_on(300, &base, &[[1, 0], [2, 0]]);
    base.users[1].set_days(0, 300);
    expect_only_group_on(300, &base, &[[1, 0], [2, 0]]);
    expect_numbers_on(301, &base, &[0]);
}

/// Each of 24 users comes on the day of the user's number.
#[test]
fn each_user_has_a_day_alone() {
    let mut base = alike(24, &[(0, 2, 1)]);
    for (day, user) in (0..).zip(&mut base.users) {
        user.set_days(day, day);
    }
    for user in 0..24 {
        expect_only_group_on(user.into(), &base, &[[user, 0]]);
    }
    expect_numbers_on(24, &base, &[0]);
    base.group_clauses = vec![GroupClause::new(0, &[(0, 2, 2)])];
    for date in 0..=24 {
        expect_numbers_on(date, &base, &[0]);
    }
}

/// User u comes on days u to u + 5: at most six meet on a date.
#[test]
fn six_meet_on_one_date_alone() {
    for entries in 1..=6 {
        let mut base = alike(6, &[(0, 4, entries)]);
        for (day, user) in (0..).zip(&mut base.users) {
            user.set_days(day, day + 5);
        }
        for date in 0..=11 {
            let meeting = if date <= 5 { date + 1 } else { 11 - date };
            let k = if u32::from(entries) <= meeting {
                entries
            } else {
                0
            };
            expect_numbers_on(date, &base, &[k]);
        }
    }
}

/// The clerk's policy counts for manager and buyer though no clerk comes.
#[test]
fn weights_do_not_depend_on_days() {
    let shop = shop_with_days(&[(2, 0, 0), (3, 0, 0)]);
    expect_only_group_on(300, &with_condition(shop.clone(), (1, 4, 5)), &[[0, 0]]);
    let both = [[0, 0], [1, 1]];
    expect_only_group_on(300, &with_condition(shop, (1, 4, 7)), &both);
}

/// A sum of 3 takes one who acts as buyer and one who acts as clerk; the heaviest
/// user is gone, then the lightest are.
#[test]
fn a_capped_sum_without_the_heaviest_and_without_the_lightest() {
    let heaviest_gone = with_condition(shop_with_days(&[(0, 0, 0)]), (1, 4, 3));
    expect_numbers_on(300, &heaviest_gone, &[2]);
    let lightest_gone = with_condition(shop_with_days(&[(2, 0, 0), (3, 0, 0)]), (1, 4, 3));
    expect_numbers_on(300, &lightest_gone, &[2]);
    let both_gone = shop_with_days(&[(0, 0, 0), (2, 0, 0), (3, 0, 0)]);
    expect_numbers_on(300, &with_condition(both_gone, (1, 4, 3)), &[0]);
}

/// The buyer's role is needed, and the manager may act in it too.
#[test]
fn a_senior_fills_the_role_of_one_who_is_gone() {
    let needed = (3, 6, 0b010);
    let buyer_gone = with_condition(shop_with_days(&[(1, 0, 299)]), needed);
    expect_numbers_on(299, &buyer_gone, &[1]);
    expect_only_group_on(300, &buyer_gone, &[[0, 1]]);
    let senior_gone = with_condition(shop_with_days(&[(0, 0, 299)]), needed);
    expect_only_group_on(300, &senior_gone, &[[1, 1]]);
    let both_gone = shop_with_days(&[(0, 0, 299), (1, 0, 299)]);
    expect_numbers_on(300, &with_condition(both_gone, needed), &[0]);
}

/// Permission 0 needs the manager's role, permission 1 the clerk's.
#[test]
fn one_permission_loses_its_group_and_the_other_keeps_it() {
    let mut base = base_of(&[1, 1], users(&[&[0], &[1]]), &[&[(3, 6, 0b01)]]);
    base = base.with_permissions(2);
    base.group_clauses
        .push(GroupClause::new(1, &[(3, 6, 0b10)]));
    base.policies.push(Policy::new(1, 1, 1, 0, NO_CONTEXT));
    base.users[0].set_days(0, 299);
    base.users[1].set_days(299, 65_535);
    expect_numbers_on(298, &base, &[1, 0]);
    expect_numbers_on(299, &base, &[1, 1]);
    expect_numbers_on(300, &base, &[0, 1]);
}

#[test]
fn nobody_comes() {
    let mut base = alike(24, &[(0, 2, 1)]).with_permissions(16);
    for user in &mut base.users {
        user.set_days(300, 300);
    }
    let mut one_releasable = [0; 16];
    expect_numbers_on(299, &base, &one_releasable);
    one_releasable[0] = 1;
    expect_numbers_on(300, &base, &one_releasable);
}

/// Eight roles, one user each; who comes has the day's bit in the number.
#[test]
fn every_set_of_users_who_come() {
    let each: Vec<User> = (0..8).map(|role| user(&[role])).collect();
    for coming in 0..=255_u8 {
        let mut base = base_of(&[1; 8], each.clone(), &[&[(2, 2, 3)]]);
        for (place, user) in base.users.iter_mut().enumerate() {
            if coming >> place & 1 == 0 {
                user.set_days(0, 299);
            }
        }
        let k = if coming.count_ones() >= 3 { 3 } else { 0 };
        let at = at_date(600, 300);
        expect_report(&base.bytes(), at, 13, &[k]);
    }
}

#[test]
fn the_small_shop_needs_two_on_every_date() {
    for date in [0, 1, 255, 256, 32_767, 32_768, 65_534, 65_535] {
        expect_numbers_on(date, &small_shop(), &[2]);
    }
}

#[test]
fn a_date_out_of_range_is_refused_before_the_buffer() {
    for date in [65_536, 65_536 + 300, 1 << 24, u32::MAX] {
        for length in [0, 12, 13, 40] {
            let shop = shop_with_days(&[(0, 300, 300)]);
            expect_report_refused(&shop.bytes(), at_date(600, date), length, 11);
        }
    }
}

#[test]
fn turned_days_refuse_the_report() {
    let shop = shop_with_days(&[(3, 300, 299)]);
    for date in [299, 300, 65_536] {
        expect_report_refused(&shop.bytes(), at_date(600, date), 13, 5);
    }
}
