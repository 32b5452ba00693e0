//! The requester: the user of the first entry, who needs no statement.

use crate::setups::*;
use compare::builder::*;
use compare::questions::{at_minute, SOME_DATE};
use compare::shop::small_shop;
use compare::{expect_report_vouched, expect_report_vouched_refused};

/// The small shop, where one entry and a sum of 5 suffice.
fn one_suffices() -> BaseBuilder {
    let mut shop = small_shop();
    shop.group_clauses = vec![GroupClause::new(0, &[(1, 2, 5)])];
    shop
}

#[test]
fn a_requester_alone_needs_no_statement() {
    expect_of(&one_suffices(), &at_3(&[]), &[MANAGER], 0);
    expect_of(&one_suffices(), &at_3(&[]), &[MANAGER, CLERK], 26);
    expect_only_group(&one_suffices(), &at_3(&[]), &[MANAGER]);
    for requester in 1..4 {
        expect_numbers(&one_suffices(), &at_3(&[]), requester, &[0]);
    }
}

/// The clerk trusts the manager, who isn't the first.
#[test]
fn the_requester_second_in_the_group_is_another_request() {
    let trust = at_3(&[says(2, 0, 5)]);
    expect(&trust, &[MANAGER, CLERK], 0);
    expect(&trust, &[CLERK, MANAGER], 26);
    let both = at_3(&[says(2, 0, 5), says(0, 2, 5)]);
    expect(&both, &[MANAGER, CLERK], 0);
    expect(&both, &[CLERK, MANAGER], 0);
}

/// The others in any order.
#[test]
fn the_order_of_the_others_does_not_matter() {
    let base = alike(5, &[(0, 4, 4)]);
    let trust = trusted_by(&[0, 1, 4], 2);
    let orders = [
        [0, 1, 4],
        [0, 4, 1],
        [1, 0, 4],
        [1, 4, 0],
        [4, 0, 1],
        [4, 1, 0],
    ];
    for order in orders {
        let others = order.map(|user| [user, 0]);
        let requested = [&[[2, 0]][..], &others].concat();
        expect_of(&base, &trust, &requested, 0);
        let last = [&others[..], &[[2, 0]]].concat();
        expect_of(&base, &trust, &last, 26);
    }
    expect_only_group(&base, &trust, &[[2, 0], [0, 0], [1, 0], [4, 0]]);
}

/// The manager trusts the manager: that changes nothing.
#[test]
fn a_statement_to_oneself_is_harmless() {
    let to_oneself = says(0, 0, 5);
    expect(&at_3(&[to_oneself]), &[MANAGER], 17);
    expect(&at_3(&[to_oneself]), &[MANAGER, CLERK], 26);
    expect(&at_3(&[to_oneself, says(2, 0, 3)]), &[MANAGER, CLERK], 0);
    expect(&at_3(&[to_oneself]), &[MANAGER, MANAGER], 14);
    expect(&at_3(&[says(2, 2, 5)]), &[MANAGER, CLERK], 26);
    expect_numbers(&small_shop(), &at_3(&[to_oneself]), 0, &[0]);
}

/// Two who act as managers are needed, and there is one.
#[test]
fn the_requester_does_not_stand_again_among_the_others() {
    let mut shop = small_shop();
    for (condition, k) in [
        ((1, 4, 10), 0),
        ((1, 4, 7), 0),
        ((1, 4, 5), 1),
        ((1, 4, 6), 2),
    ] {
        shop.group_clauses = vec![GroupClause::new(0, &[condition])];
        let trust = at_3(&[says(0, 0, 5), says(2, 0, 5)]);
        expect_numbers(&shop, &trust, 0, &[k]);
    }
    let base = alike(6, &[(0, 4, 6)]);
    expect_numbers(&base, &trusted_by(&[0, 1, 2, 3, 4], 0), 0, &[0]);
    expect_numbers(&base, &trusted_by(&[0, 1, 2, 3, 4, 5], 0), 0, &[6]);
}

/// Each of 24 users requests, and all others vouch.
#[test]
fn every_user_can_be_the_requester() {
    let base = alike(24, &[(0, 4, 2)]);
    for requester in 0..24 {
        for other in (0..24).filter(|other| *other != requester) {
            let trust = trusted_by(&[other], requester);
            expect_only_group(&base, &trust, &[[requester, 0], [other, 0]]);
        }
    }
}

#[test]
fn a_requester_who_is_not_there_is_refused() {
    let (base, at) = (small_shop().bytes(), at_minute(600));
    for requester in [4, 5, 24, 255] {
        for length in [0, 12, 13, 300] {
            expect_report_vouched_refused(&base, at, &at_3(&[]), requester, length, 13);
        }
    }
    expect_report_vouched(&base, at, &at_3(&[]), 3, 13, &[0]);
}

#[test]
fn without_users_there_is_no_requester() {
    let base = BaseBuilder::new(1).with_permissions(1).bytes();
    for requester in [0, 1, 256] {
        expect_report_vouched_refused(&base, at_minute(0), &at_3(&[]), requester, 13, 13);
    }
}

/// 256 would be user 0 if it were cut to a byte.
#[test]
fn a_requesters_number_is_not_cut() {
    let (base, at) = (small_shop().bytes(), at_minute(600));
    let trust = trusted_by(&[1, 2, 3], 0);
    expect_report_vouched(&base, at, &trust, 0, 13, &[2]);
    for power in 8..32 {
        expect_report_vouched_refused(&base, at, &trust, 1 << power, 13, 13);
    }
    for requester in [257, 258, 65_536 + 1, u32::MAX] {
        expect_report_vouched_refused(&base, at, &trust, requester, 13, 13);
    }
}

/// Of 16 permissions each would be granted to user 1 alone.
#[test]
fn a_requester_out_of_date_has_no_group_for_any_permission() {
    let mut base = alike(2, &[(0, 2, 1)]).with_permissions(16);
    let clause = base.group_clauses[0].clone();
    let policy = base.policies[0].clone();
    for permission in 1..16 {
        base.group_clauses.push(GroupClause {
            permission,
            ..clause.clone()
        });
        base.policies.push(Policy {
            permission,
            ..policy.clone()
        });
    }
    base.users[0].set_days(300, 310);
    let trust = trusted_by(&[1], 0);
    for (date, k) in [(299, 0), (300, 1), (310, 1), (311, 0), (SOME_DATE, 0)] {
        expect_numbers_on(date, &base, &trust, 0, &[k; 16]);
        expect_numbers_on(date, &base, &trust, 1, &[1; 16]);
    }
}

/// A user without a role, and one whose role has no weight.
#[test]
fn a_requester_who_cannot_act_has_no_group() {
    let mut base = alike(3, &[(0, 2, 1)]);
    base.users[0] = User::always(1);
    let trust = trusted_by(&[1, 2], 0);
    expect_numbers(&base, &trust, 0, &[0]);
    expect_of(&base, &trust, &[[0, 0], [1, 0]], 15);
    base.users[0] = User::always(3);
    base.policies.clear();
    expect_numbers(&base, &trust, 0, &[0]);
    expect_of(&base, &trust, &[[0, 0], [1, 0]], 16);
}
