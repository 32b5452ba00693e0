//! Users' days with a resolution list: 24 behind 15 and before 16, and reports
//! over the users who come on the date.

use compare::builder::*;
use compare::lists::{ILLEGAL, LEGAL};
use compare::questions::{at_date, Asked};
use compare::shop::small_shop;
use compare::{expect_decision_by, expect_report_by, expect_report_by_refused};

/// The small shop, whose buyer's days end with 299.
fn buyer_gone() -> BaseBuilder {
    let mut shop = small_shop();
    shop.users[1].set_days(0, 299);
    shop
}

/// Expects this answer at minute 480 on a date by every legal list.
fn expect_on(date: u32, base: &BaseBuilder, entries: &[[u8; 2]], answer: u8) {
    for list in LEGAL {
        let asked = Asked::new(0, at_date(480, date), entries);
        expect_decision_by(&base.bytes(), list, &asked, answer);
    }
}

/// Early the roles weigh 4, 1 and 0.
#[test]
fn days_come_between_15_and_16_by_every_list() {
    let (manager, buyer, clerk) = ([0, 0], [1, 1], [2, 2]);
    expect_on(299, &buyer_gone(), &[manager, buyer], 0);
    expect_on(300, &buyer_gone(), &[manager, buyer], 24);
    expect_on(300, &buyer_gone(), &[clerk, buyer], 24);
    expect_on(300, &buyer_gone(), &[buyer, clerk], 24);
    expect_on(300, &buyer_gone(), &[buyer, [3, 1]], 15);
    expect_on(300, &buyer_gone(), &[buyer, buyer], 14);
    expect_on(300, &buyer_gone(), &[buyer, [4, 2]], 13);
    expect_on(300, &buyer_gone(), &[], 12);
    expect_on(65_536, &buyer_gone(), &[buyer], 11);
    expect_on(300, &buyer_gone(), &[clerk], 16);
    expect_on(300, &buyer_gone(), &[manager], 17);
}

#[test]
fn refusal_22_beats_24_and_11_of_a_date() {
    for list in ILLEGAL {
        for date in [300, 65_536] {
            let asked = Asked::new(0, at_date(480, date), &[[1, 1]]);
            expect_decision_by(&buyer_gone().bytes(), list, &asked, 22);
            let at = at_date(480, date);
            expect_report_by_refused(&buyer_gone().bytes(), at, list, 13, 22);
        }
    }
}

#[test]
fn a_report_by_a_list_has_a_date_in_range() {
    for list in LEGAL {
        let (base, at) = (buyer_gone().bytes(), at_date(480, 65_536));
        expect_report_by_refused(&base, at, list, 13, 11);
        expect_report_by_refused(&base, at, list, 0, 11);
        expect_report_by_refused(&base, at_date(480, 65_535), list, 12, 19);
    }
}

/// Early only manager and buyer have weight, and both are needed.
#[test]
fn a_report_without_those_whose_days_are_over() {
    for list in LEGAL {
        for (date, k) in [(0, 2), (299, 2), (300, 0), (65_535, 0)] {
            let at = at_date(480, date);
            expect_report_by(&buyer_gone().bytes(), at, list, 13, &[k]);
        }
    }
}

/// Two policies of the clerk: weight 5 on day 1 and weight 2 on day 2. Four clerks
/// are there, and a sum of 6 is needed: two of them, or three by rule 0. With two
/// of them gone it is two, or none.
#[test]
fn list_and_date_both_count() {
    let clerks = BaseBuilder {
        users: vec![User::always(3); 4],
        policies: vec![
            Policy {
                issue_day: 1,
                ..Policy::new(0, 0, 5, 0, NO_CONTEXT)
            },
            Policy {
                issue_day: 2,
                ..Policy::new(0, 0, 2, 0, NO_CONTEXT)
            },
        ],
        group_clauses: vec![GroupClause::new(0, &[(1, 2, 6)])],
        ..BaseBuilder::new(1).with_permissions(1)
    };
    let mut two_gone = clerks.clone();
    two_gone.users[0].set_days(0, 299);
    two_gone.users[3].set_days(0, 299);
    for (list, before, after) in [(&[1][..], 2, 2), (&[0], 3, 0), (&[2], 3, 0)] {
        for (base, date, k) in [
            (&clerks, 300, before),
            (&two_gone, 299, before),
            (&two_gone, 300, after),
        ] {
            let at = at_date(600, date);
            expect_report_by(&base.bytes(), at, list, 13, &[k]);
        }
    }
}

/// A policy's issue day is before or behind the date: it counts all the same.
#[test]
fn issue_days_are_not_held_against_the_date() {
    let mut shop = small_shop();
    for (policy, day) in shop.policies.iter_mut().zip([299, 300, 301]) {
        policy.issue_day = day;
    }
    for date in [0, 299, 300, 301, 65_535] {
        expect_on(date, &shop, &[[0, 0], [1, 1]], 0);
    }
}
