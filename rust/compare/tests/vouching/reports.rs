//! Smallest numbers for a requester, beside those of the first report.

use crate::setups::*;
use compare::builder::*;
use compare::questions::at_minute;
use compare::shop::small_shop;
use compare::trust::{Statement, Trust};
use compare::{expect_report, expect_report_vouched};

/// Expects the first report's number and the one for a requester, at minute 600.
fn expect_both(base: &BaseBuilder, first: u8, trust: &Trust, requester: u32, k: u8) {
    expect_report(&base.bytes(), at_minute(600), 13, &[first]);
    expect_numbers(base, trust, requester, &[k]);
}

/// The small shop with one condition on its groups.
fn shop_with(conditions: &[GroupCondition]) -> BaseBuilder {
    let mut shop = small_shop();
    shop.group_clauses = vec![GroupClause::new(0, conditions)];
    shop
}

#[test]
fn the_requester_stands_first_and_the_others_by_rising_user() {
    let base = alike(8, &[(0, 4, 4)]);
    for (requester, others) in [
        (0, [1, 2, 3]),
        (5, [0, 2, 7]),
        (7, [0, 1, 2]),
        (3, [2, 4, 6]),
    ] {
        let trust = trusted_by(&others, requester);
        let [one, two, three] = others;
        let group = [requester, one, two, three].map(|user| [user, 0]);
        expect_only_group(&base, &trust, &group);
    }
}

#[test]
fn nobody_vouches_in_an_empty_register() {
    for requester in 0..4 {
        expect_both(&small_shop(), 2, &at_3(&[]), requester, 0);
    }
    expect_both(&shop_with(&[(0, 2, 1)]), 1, &at_3(&[]), 3, 1);
}

/// A sum of 7: manager and buyer. The buyer doesn't vouch, but both clerks do.
#[test]
fn a_smallest_number_is_larger_than_the_first_reports() {
    let shop = shop_with(&[(1, 2, 7)]);
    let clerks = trusted_by(&[2, 3], 0);
    expect_both(&shop, 2, &clerks, 0, 3);
    expect_only_group(&shop, &clerks, &[MANAGER, CLERK, OTHER_CLERK]);
    expect_both(&shop, 2, &trusted_by(&[1, 2, 3], 0), 0, 2);
}

/// The same sum, and one clerk vouches.
#[test]
fn a_group_that_the_first_report_shows_is_lost() {
    let shop = shop_with(&[(1, 2, 7)]);
    expect_both(&shop, 2, &trusted_by(&[2], 0), 0, 0);
    expect_both(&shop, 2, &trusted_by(&[2], 1), 1, 0);
}

/// One user weighs 5 and vouches for nobody; seven others weigh 1, and all of them
/// vouch for the first.
#[test]
fn up_to_six_in_place_of_one() {
    for k in 1..=6 {
        let mut base = alike(8, &[(1, 2, k)]);
        base.roles = 2;
        base.policies.push(Policy::new(1, 0, 5, 0, NO_CONTEXT));
        base.users[7] = User::always(5);
        let trust = trusted_by(&[1, 2, 3, 4, 5, 6], 0);
        let first = if k <= 5 { 1 } else { 2 };
        expect_both(&base, first, &trust, 0, k);
        let mut seven = base.clone();
        seven.group_clauses = vec![GroupClause::new(0, &[(1, 2, 7)])];
        expect_both(&seven, 3, &trust, 0, 0);
    }
}

/// The requester has to stand in the group though another would do alone.
#[test]
fn a_requester_with_little_weight_takes_more() {
    let base = shop_with(&[(1, 2, 5)]);
    expect_both(&base, 1, &trusted_by(&[0, 2, 3], 1), 1, 2);
    expect_only_group(&base, &trusted_by(&[0, 2, 3], 1), &[BUYER, MANAGER]);
    expect_both(&base, 1, &trusted_by(&[1, 2], 3), 3, 0);
    expect_both(&shop_with(&[(1, 2, 4)]), 1, &trusted_by(&[1, 2], 3), 3, 3);
}

/// A cap on the sum shuts out the manager as manager, whoever vouches.
#[test]
fn a_cap_is_kept_with_the_requester_in_the_sum() {
    let capped = shop_with(&[(0, 2, 2), (1, 3, 4)]);
    let all = trusted_by(&[0, 1, 2, 3], 0);
    expect_both(&capped, 2, &all, 0, 2);
    let exact = shop_with(&[(1, 4, 9)]);
    expect_both(&exact, 4, &all, 0, 4);
    expect_both(&exact, 4, &trusted_by(&[1, 2], 0), 0, 0);
    expect_both(&exact, 4, &trusted_by(&[0, 1, 3], 2), 2, 4);
}

/// Role 2 is needed: the requester may act in it, or one who vouches.
#[test]
fn a_set_is_met_by_the_requester_or_by_one_who_vouches() {
    let needed = shop_with(&[(3, 6, 0b100)]);
    expect_only_group(&needed, &at_3(&[]), &[[2, 2]]);
    expect_both(&needed, 1, &at_3(&[]), 0, 1);
    let all_roles = shop_with(&[(2, 4, 3)]);
    expect_both(&all_roles, 3, &trusted_by(&[0, 1], 3), 3, 3);
    expect_only_group(
        &all_roles,
        &trusted_by(&[0, 1], 3),
        &[OTHER_CLERK, MANAGER, BUYER],
    );
    expect_both(&all_roles, 3, &trusted_by(&[2, 3], 1), 1, 0);
    let acting_below = trusted_by(&[1, 2], 0);
    expect_only_group(&all_roles, &acting_below, &[MANAGER, BUYER, CLERK]);
}

/// Every role that the requester may act in is tried: as manager the sum is too
/// large, as clerk too small.
#[test]
fn the_requester_acts_in_any_role() {
    let as_buyer = shop_with(&[(0, 4, 1), (1, 4, 2)]);
    expect_only_group(&as_buyer, &at_3(&[]), &[[0, 1]]);
    let as_clerk = shop_with(&[(0, 4, 1), (1, 4, 1)]);
    expect_only_group(&as_clerk, &at_3(&[]), &[[0, 2]]);
    let with_buyer = shop_with(&[(0, 4, 2), (1, 4, 4)]);
    expect_only_group(&with_buyer, &trusted_by(&[1], 0), &[[0, 1], BUYER]);
}

/// Each permission has vouchers of its own.
#[test]
fn who_vouches_differs_from_permission_to_permission() {
    let mut base = alike(5, &[(0, 4, 2)]).with_permissions(4);
    let (clause, policy) = (base.group_clauses[0].clone(), base.policies[0].clone());
    for permission in 1..4 {
        base.group_clauses.push(GroupClause {
            permission,
            ..clause.clone()
        });
        base.policies.push(Policy {
            permission,
            ..policy.clone()
        });
    }
    let of = |user, permission| Statement::always(user, 0, permission, 5);
    let statements = [of(1, 0), of(2, 0), of(4, 2), of(3, 3)];
    expect_numbers(&base, &at_3(&statements), 0, &[2, 0, 2, 2]);
    expect_numbers(&base, &at_3(&statements[1..]), 0, &[2, 0, 2, 2]);
    expect_numbers(&base, &at_3(&statements[2..]), 0, &[0, 0, 2, 2]);
    expect_numbers(&base, &at_3(&[]), 0, &[0; 4]);
}

/// All 16 permissions, with one more who vouches from one to the next.
#[test]
fn sixteen_permissions_with_other_vouchers_each() {
    let mut base = alike(17, &[(0, 4, 6)]).with_permissions(16);
    base.group_clauses.clear();
    base.policies.clear();
    let mut statements = Vec::new();
    for permission in 0..16 {
        base.group_clauses
            .push(GroupClause::new(permission, &[(0, 4, 1 + permission % 6)]));
        base.policies
            .push(Policy::new(0, permission, 1, 0, NO_CONTEXT));
        let vouching = 1..=permission % 5;
        statements.extend(vouching.map(|user| Statement::always(user, 0, permission, 3)));
    }
    let numbers: Vec<u8> = (0..16)
        .map(|permission: u8| {
            let (entries, vouching) = (1 + permission % 6, permission % 5);
            if entries <= 1 + vouching {
                entries
            } else {
                0
            }
        })
        .collect();
    expect_numbers(&base, &at_3(&statements), 0, &numbers);
    let nobody_suffices = Trust::new(4, &statements);
    let alone: Vec<u8> = (0..16)
        .map(|permission| u8::from(permission % 6 == 0))
        .collect();
    expect_numbers(&base, &nobody_suffices, 0, &alone);
}

/// By trust in full each requester's number is that of the groups with the
/// requester.
#[test]
fn by_trust_in_full_the_first_decision_decides() {
    let shop = small_shop();
    for (requester, k) in [(0, 2), (1, 2), (2, 2), (3, 2)] {
        let trust = trusted_by(&[0, 1, 2, 3], requester);
        expect_both(&shop, 2, &trust, requester.into(), k);
    }
    let heavy = shop_with(&[(1, 2, 7)]);
    for (requester, k) in [(0, 2), (1, 2), (2, 3), (3, 3)] {
        let trust = trusted_by(&[0, 1, 2, 3], requester);
        expect_both(&heavy, 2, &trust, requester.into(), k);
    }
}

/// The small shop at minute 480, where clerks have no weight.
#[test]
fn the_context_decides_who_has_weight() {
    let base = small_shop().bytes();
    for (issuers, early, by_day) in [(&[1][..], 2, 2), (&[2, 3], 0, 2), (&[], 0, 0)] {
        let trust = trusted_by(issuers, 0);
        expect_report_vouched(&base, at_minute(480), &trust, 0, 13, &[early]);
        expect_report_vouched(&base, at_minute(600), &trust, 0, 13, &[by_day]);
    }
}

#[test]
fn no_permission_needs_no_buffer() {
    let base = BaseBuilder {
        users: small_shop().users,
        ..BaseBuilder::new(3)
    };
    for requester in 0..4 {
        expect_report_vouched(&base.bytes(), at_minute(0), &at_3(&[]), requester, 0, &[]);
    }
}
