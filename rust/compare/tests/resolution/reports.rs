//! Reports by a list.

use crate::setups::*;
use compare::builder::*;
use compare::lists::LEGAL;
use compare::questions::at_minute;
use compare::shop::small_shop;
use compare::{expect_report, expect_report_by, expect_report_by_refused, permission_count};

/// The small shop with five clerks alone and five policies of theirs: of weights
/// 5 to 1, each later, of lower rank and lighter than those in front of it. A sum
/// of 5 or more is asked for.
fn five_policies() -> BaseBuilder {
    let of_clerk = |i: u8| Policy {
        rank: 9 - i,
        issue_day: i.into(),
        ..Policy::new(2, 0, 5 - i, 0, NO_CONTEXT)
    };
    BaseBuilder {
        users: vec![User::always(7); 5],
        group_clauses: vec![GroupClause::new(0, &[(1, 2, 5)])],
        policies: (0..5).map(of_clerk).collect(),
        ..small_shop()
    }
}

#[test]
fn by_a_list_a_smallest_group_has_more_or_fewer() {
    let base = five_policies().bytes();
    expect_report(&base, at_minute(600), 13, &[1]);
    for (list, k) in [
        (&[0][..], 5),
        (&[1], 1),
        (&[2], 5),
        (&[1, 0], 1),
        (&[0, 1], 5),
    ] {
        expect_report_by(&base, at_minute(600), list, 13, &[k]);
    }
}

#[test]
fn fewer_policies_need_fewer_approvers() {
    let mut shop = five_policies();
    for k in [5, 3, 2, 2, 1] {
        expect_report_by(&shop.bytes(), at_minute(600), &[0], 13, &[k]);
        expect_report_by(&shop.bytes(), at_minute(600), &[1], 13, &[1]);
        shop.policies.pop();
    }
    expect_report_by(&shop.bytes(), at_minute(600), &[0], 13, &[0]);
}

/// By the later day no five clerks have a sum of 6.
#[test]
fn by_a_list_no_group_may_suffice() {
    let mut shop = five_policies();
    shop.group_clauses[0].conditions[0] = (1, 2, 6);
    let base = shop.bytes();
    expect_report_by(&base, at_minute(600), &[0], 13, &[0]);
    expect_report_by(&base, at_minute(600), &[1], 13, &[2]);
    expect_report(&base, at_minute(600), 13, &[2]);
}

/// With a cap on the sum the lighter ones are wanted.
#[test]
fn by_a_list_a_group_may_be_granted_that_else_is_not() {
    let mut shop = five_policies();
    shop.group_clauses[0] = GroupClause::new(0, &[(0, 2, 3), (1, 3, 3)]);
    let base = shop.bytes();
    expect_report(&base, at_minute(600), 13, &[0]);
    expect_report_by(&base, at_minute(600), &[0], 13, &[3]);
    expect_report_by(&base, at_minute(600), &[1], 13, &[0]);
}

/// The manager inherits from the clerk what is chosen among type 1: 5 alone
/// suffices, 2 with one clerk of weight 3.
#[test]
fn inh_is_chosen_among_type_1() {
    let policies = [inherited(1, 2, 5), issued(3, 3, 3), inherited(2, 1, 2)];
    let base = BaseBuilder {
        users: [3, 7].map(User::always).to_vec(),
        group_clauses: vec![GroupClause::new(0, &[(1, 4, 5)])],
        ..with_policies(&policies)
    };
    let base = base.bytes();
    expect_report_by(&base, at_minute(600), &[0], 26, &[2, 0]);
    expect_report_by(&base, at_minute(600), &[1], 26, &[1, 0]);
    expect_report(&base, at_minute(600), 26, &[1, 0]);
}

/// Each permission has two policies of the clerk, in another order.
#[test]
fn each_permission_is_chosen_for_by_itself() {
    let of = |permission, issue_day, weight| Policy {
        permission,
        issue_day,
        ..Policy::new(2, 0, weight, 0, NO_CONTEXT)
    };
    let base = BaseBuilder {
        users: vec![User::always(7); 5],
        group_clauses: [0, 1].map(|p| GroupClause::new(p, &[(1, 2, 5)])).to_vec(),
        policies: vec![of(0, 1, 5), of(1, 1, 1), of(1, 2, 5), of(0, 2, 1)],
        ..small_shop().with_permissions(2)
    };
    let base = base.bytes();
    expect_report(&base, at_minute(600), 26, &[1, 5]);
    expect_report_by(&base, at_minute(600), &[0], 26, &[5, 1]);
    expect_report_by(&base, at_minute(600), &[1], 26, &[1, 5]);
    expect_report_by(&base, at_minute(600), &[2], 26, &[5, 5]);
}

#[test]
fn the_context_decides_which_policies_there_are() {
    let mut shop = five_policies();
    shop.policies[4].context = 0;
    let base = shop.bytes();
    expect_report_by(&base, at_minute(600), &[0], 13, &[5]);
    expect_report_by(&base, at_minute(480), &[0], 13, &[3]);
}

#[test]
fn later_bytes_keep_their_contents() {
    let base = five_policies().bytes();
    for list in LEGAL {
        let k = if list[0] == 1 { 1 } else { 5 };
        for length in [13, 14, 26, 300] {
            expect_report_by(&base, at_minute(600), list, length, &[k]);
        }
        for length in [0, 1, 12] {
            expect_report_by_refused(&base, at_minute(600), list, length, 19);
        }
    }
}

#[test]
fn no_permission_needs_no_buffer() {
    let base = BaseBuilder::new(1).bytes();
    assert_eq!(permission_count(&base), 0);
    for list in LEGAL {
        expect_report_by(&base, at_minute(0), list, 0, &[]);
        expect_report_by_refused(&base, at_minute(1440), list, 0, 11);
    }
    expect_report_by_refused(&base, at_minute(1440), &[], 0, 22);
}

#[test]
fn without_rivals_a_list_changes_nothing() {
    for list in LEGAL {
        for minute in [480, 600] {
            expect_report_by(&small_shop().bytes(), at_minute(minute), list, 13, &[2]);
        }
    }
}
