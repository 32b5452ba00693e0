//! Refusals 10 and 11: permission, minute, day, zone and date as numbers of 4 bytes
//! that aren't cut.

use crate::setups::*;
use compare::builder::GroupClause;
use compare::expect_decision;
use compare::questions::{at_minute, Asked};
use compare::shop::small_shop;
use model::Context;

/// Expects this answer of the small shop for a group that permission 0 is
/// granted to.
fn expect_permission(permission: u32, answer: u8) {
    let asked = Asked::new(permission, at_minute(600), &[MANAGER, CLERK]);
    expect_decision(&small_shop().bytes(), &asked, answer);
}

#[test]
fn permission_0_of_one_is_there() {
    expect_permission(0, 0);
}

#[test]
fn permission_1_of_one_is_not_there() {
    expect_permission(1, 10);
}

#[test]
fn permission_255_is_not_there() {
    expect_permission(255, 10);
}

#[test]
fn permission_256_is_not_cut_to_0() {
    expect_permission(256, 10);
}

#[test]
fn permission_257_is_not_cut_to_1() {
    expect_permission(257, 10);
    let mut two = open_base(1).with_permissions(2);
    two.group_clauses = vec![GroupClause::new(1, &[(0, 2, 1)])];
    two.policies[0].permission = 1;
    for (permission, answer) in [(0, 16), (1, 0), (2, 10), (257, 10)] {
        let asked = Asked::new(permission, at_minute(600), &[[0, 0]]);
        expect_decision(&two.bytes(), &asked, answer);
    }
}

#[test]
fn no_other_power_of_2_is_cut_to_0() {
    for power in 1..32 {
        expect_permission(1 << power, 10);
    }
}

#[test]
fn the_largest_permission_number_is_not_there() {
    expect_permission(u32::MAX, 10);
}

#[test]
fn the_last_of_16_permissions_is_there() {
    let mut base = open_base(1).with_permissions(16);
    base.group_clauses[0].permission = 15;
    base.policies[0].permission = 15;
    for (permission, answer) in [(0, 16), (14, 16), (15, 0), (16, 10), (271, 10)] {
        let asked = Asked::new(permission, at_minute(600), &[[0, 0]]);
        expect_decision(&base.bytes(), &asked, answer);
    }
}

#[test]
fn of_no_permissions_none_is_there() {
    let mut base = open_base(1).with_permissions(0);
    base.group_clauses.clear();
    base.policies.clear();
    for permission in [0, 1, 256, u32::MAX] {
        let asked = Asked::new(permission, at_minute(600), &[[0, 0]]);
        expect_decision(&base.bytes(), &asked, 10);
    }
}

/// Expects this answer for a group that is granted in every context.
fn expect_context(minute: u32, day: u32, zone: u32, date: u32, answer: u8) {
    let at = Context {
        minute,
        day,
        zone,
        date,
    };
    let asked = Asked::new(0, at, &[[0, 0]]);
    expect_decision(&open_base(1).bytes(), &asked, answer);
}

#[test]
fn the_first_and_the_last_context_are_in_range() {
    expect_context(0, 0, 0, 0, 0);
    expect_context(1439, 6, 255, 65_535, 0);
}

#[test]
fn minute_1440_is_out_of_range() {
    expect_context(1439, 0, 0, 0, 0);
    expect_context(1440, 0, 0, 0, 11);
}

#[test]
fn day_7_is_out_of_range() {
    expect_context(0, 6, 0, 0, 0);
    expect_context(0, 7, 0, 0, 11);
}

#[test]
fn zone_256_is_out_of_range() {
    expect_context(0, 0, 255, 0, 0);
    expect_context(0, 0, 256, 0, 11);
}

#[test]
fn date_65536_is_out_of_range() {
    expect_context(0, 0, 0, 65_535, 0);
    expect_context(0, 0, 0, 65_536, 11);
}

#[test]
fn the_largest_number_is_out_of_every_range() {
    expect_context(u32::MAX, 0, 0, 0, 11);
    expect_context(0, u32::MAX, 0, 0, 11);
    expect_context(0, 0, u32::MAX, 0, 11);
    expect_context(0, 0, 0, u32::MAX, 11);
    expect_context(u32::MAX, u32::MAX, u32::MAX, u32::MAX, 11);
}

#[test]
fn no_part_of_a_context_is_cut() {
    for power in [11, 16, 24, 31] {
        expect_context(600 + (1 << power), 0, 0, 0, 11);
    }
    for power in [3, 8, 16, 24, 31] {
        expect_context(0, 1 << power, 0, 0, 11);
    }
    for power in [8, 16, 24, 31] {
        expect_context(0, 0, 1 << power, 0, 11);
    }
    for power in [16, 17, 24, 31] {
        expect_context(0, 0, 0, 600 + (1 << power), 11);
    }
}

#[test]
fn two_parts_out_of_range_are_out_of_range() {
    expect_context(1440, 7, 0, 0, 11);
    expect_context(0, 7, 256, 0, 11);
    expect_context(1440, 0, 256, 0, 11);
    expect_context(1440, 0, 0, 65_536, 11);
    expect_context(0, 0, 256, 65_536, 11);
}
