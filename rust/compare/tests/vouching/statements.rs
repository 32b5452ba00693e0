//! Which statement lets a user stand beside the requester: a single one that fits in
//! every point.

use crate::setups::*;
use compare::builder::*;
use compare::questions::{at_minute, Asked};
use compare::shop::small_shop;
use compare::trust::{Statement, Trust};
use compare::{expect_decision_vouched, expect_report_vouched};

/// Expects the small shop's answer for manager and clerk, and the manager's number.
fn expect_both(statements: &[Statement], answer: u8) {
    let trust = at_3(statements);
    expect(&trust, &[MANAGER, CLERK], answer);
    expect_numbers(&small_shop(), &trust, 0, &[if answer == 0 { 2 } else { 0 }]);
}

#[test]
fn one_that_fits_suffices() {
    expect_both(&[says(2, 0, 3)], 0);
    expect_both(&[], 26);
}

#[test]
fn the_wrong_way_round_is_none() {
    expect_both(&[says(0, 2, 5)], 26);
    expect_both(&[says(0, 2, 5), says(2, 0, 3)], 0);
    expect(&at_3(&[says(0, 2, 5)]), &[CLERK, MANAGER], 0);
    expect(&at_3(&[says(2, 0, 5)]), &[CLERK, MANAGER], 26);
}

/// Of every two of four users one vouches for the other.
#[test]
fn from_the_entrys_user_to_the_requester_alone() {
    let base = alike(4, &[(0, 2, 1)]);
    for issuer in 0..4 {
        for named in 0..4 {
            let trust = at_3(&[says(issuer, named, 5)]);
            for requester in 0..4 {
                for user in (0..4).filter(|user| *user != requester) {
                    let fits = (issuer, named) == (user, requester);
                    let answer = if fits { 0 } else { 26 };
                    expect_of(&base, &trust, &[[requester, 0], [user, 0]], answer);
                }
            }
        }
    }
}

#[test]
fn one_for_another_permission_is_none() {
    let mut shop = small_shop().with_permissions(3);
    let clauses = [0, 1, 2].map(|permission| GroupClause {
        permission,
        ..shop.group_clauses[0].clone()
    });
    shop.group_clauses = clauses.to_vec();
    let policies = shop.policies.clone();
    for permission in [1, 2] {
        let more = policies.iter().cloned();
        shop.policies.extend(more.map(|policy| Policy {
            permission,
            ..policy
        }));
    }
    for vouched in 0..3_u8 {
        let trust = at_3(&[Statement::always(2, 0, vouched, 5)]);
        let mut numbers = [0; 3];
        numbers[usize::from(vouched)] = 2;
        expect_numbers(&shop, &trust, 0, &numbers);
        for permission in 0..3 {
            let asked = Asked::new(permission, at_minute(600), &[MANAGER, CLERK]);
            let answer = if permission == u32::from(vouched) {
                0
            } else {
                26
            };
            expect_decision_vouched(&shop.bytes(), &trust, &asked, answer);
        }
    }
}

/// One has the trust and the other the date; they are no one statement.
#[test]
fn two_that_only_together_would_do_are_none() {
    let trusts_no_more = says(2, 0, 5).on(0, 300);
    let trusts_less = says(2, 0, 2);
    expect_both(&[trusts_no_more, trusts_less], 26);
    expect_both(&[trusts_less, trusts_no_more], 26);
    let trusts_not_yet = says(2, 0, 5).on(30_000, 65_535);
    expect_both(&[trusts_no_more, trusts_less, trusts_not_yet], 26);
    expect_both(&[trusts_no_more, says(2, 0, 3), trusts_not_yet], 0);
}

/// Each lacks one point that another has.
#[test]
fn many_that_fit_all_but_one_point_are_none() {
    let two = small_shop().with_permissions(2);
    let unfit = [
        says(3, 0, 5),
        says(2, 1, 5),
        Statement::always(2, 0, 1, 5),
        says(2, 0, 2),
        says(2, 0, 5).on(0, 300),
        says(2, 0, 5).on(30_000, 65_535),
        says(0, 2, 5),
    ];
    expect_of(&two, &at_3(&unfit), &[MANAGER, CLERK], 26);
    for place in 0..=unfit.len() {
        let mut statements = unfit.to_vec();
        statements.insert(place, says(2, 0, 3));
        expect_of(&two, &at_3(&statements), &[MANAGER, CLERK], 0);
    }
}

#[test]
fn it_may_stand_anywhere_in_a_full_register() {
    let base = small_shop().bytes();
    let asked = Asked::new(0, at_minute(600), &[MANAGER, CLERK]);
    for place in [0, 1, 31, 32, 127, 128, 254, 255] {
        let mut statements = vec![says(3, 1, 5); 256];
        statements[place] = says(2, 0, 3);
        let trust = at_3(&statements);
        expect_decision_vouched(&base, &trust, &asked, 0);
        expect_report_vouched(&base, at_minute(600), &trust, 0, 13, &[2]);
        statements[place] = says(2, 0, 2);
        expect_decision_vouched(&base, &at_3(&statements), &asked, 26);
    }
}

/// Six users of 24, each with a statement of the user's own.
#[test]
fn each_entry_but_the_first_needs_one() {
    let base = alike(24, &[(0, 4, 6)]);
    let group = [[9, 0], [0, 0], [23, 0], [4, 0], [11, 0], [16, 0]];
    let issuers = [0, 23, 4, 11, 16];
    expect_of(&base, &trusted_by(&issuers, 9), &group, 0);
    for missing in 0..5 {
        let mut others = issuers.to_vec();
        others.remove(missing);
        let trust = trusted_by(&others, 9);
        expect_of(&base, &trust, &group, 26);
        expect_numbers(&base, &trust, 9, &[0]);
        others.push(9);
        expect_of(&base, &trusted_by(&others, 9), &group, 26);
    }
}

/// Who vouches for an entry but the first doesn't vouch for the requester.
#[test]
fn trust_is_not_handed_on() {
    let trust = Trust::new(1, &[says(1, 0, 5), says(2, 1, 5), says(3, 2, 5)]);
    let base = alike(4, &[(0, 2, 1)]);
    expect_of(&base, &trust, &[[0, 0], [1, 0]], 0);
    expect_of(&base, &trust, &[[0, 0], [2, 0]], 26);
    expect_of(&base, &trust, &[[0, 0], [1, 0], [2, 0]], 26);
    let two = BaseBuilder {
        group_clauses: vec![GroupClause::new(0, &[(0, 4, 2)])],
        ..base.clone()
    };
    expect_only_group(&two, &trust, &[[0, 0], [1, 0]]);
    let three = BaseBuilder {
        group_clauses: vec![GroupClause::new(0, &[(0, 4, 3)])],
        ..base
    };
    expect_numbers(&three, &trust, 0, &[0]);
}
