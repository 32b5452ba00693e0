//! Permission, minute, day, zone, date, threshold and requester as numbers of 4
//! bytes that aren't cut.

use crate::setups::*;
use compare::questions::{at_minute, Asked};
use compare::shop::small_shop;
use compare::trust::Trust;
use compare::{expect_decision_vouched, expect_report_vouched_refused};
use model::Context;

/// Expects this answer of the small shop for a group that is granted at minute 600.
fn expect_decided(permission: u32, at: Context, threshold: u32, answer: u8) {
    let trust = Trust::new(threshold, &[says(2, 0, 5)]);
    let asked = Asked::new(permission, at, &[MANAGER, CLERK]);
    expect_decision_vouched(&small_shop().bytes(), &trust, &asked, answer);
}

#[test]
fn no_number_of_a_decision_is_cut() {
    let at = at_minute(600);
    expect_decided(0, at, 5, 0);
    for power in 8..32 {
        expect_decided(1 << power, at, 5, 10);
        expect_decided(0, at, (1 << power) + 5, 27);
    }
    let cut = [
        at_minute(65_536 + 600),
        Context { day: 256, ..at },
        Context { zone: 256, ..at },
        Context {
            date: 65_536 + at.date,
            ..at
        },
    ];
    for at in cut {
        expect_decided(0, at, 5, 11);
    }
    let most = u32::MAX;
    let out_of_range = Context {
        minute: most,
        day: most,
        zone: most,
        date: most,
    };
    expect_decided(most, out_of_range, most, 27);
    expect_decided(most, out_of_range, 5, 10);
    expect_decided(0, out_of_range, 5, 11);
}

#[test]
fn no_number_of_a_report_is_cut() {
    let at = at_minute(600);
    let expect = |at, threshold, requester, refusal| {
        let trust = Trust::new(threshold, &[says(2, 0, 5)]);
        let base = small_shop().bytes();
        expect_report_vouched_refused(&base, at, &trust, requester, 13, refusal);
    };
    for power in 8..32 {
        expect(at, 5, 1 << power, 13);
        expect(at, (1 << power) + 5, 0, 27);
    }
    expect(Context { zone: 256, ..at }, 5, 0, 11);
    expect(Context { zone: 256, ..at }, 5, 256, 11);
    expect(at, 257, 256, 27);
    expect(at, 1, 256, 13);
}

/// The days of statements and users are no minutes, days of the week or zones.
#[test]
fn other_numbers_of_a_context_are_no_date() {
    let trust = at_3(&[says(2, 0, 5).on(5, 6)]);
    let base = small_shop().bytes();
    for (minute, day, zone, date, answer) in [
        (600, 0, 0, 5, 0),
        (600, 5, 5, 4, 26),
        (600, 6, 6, 600, 26),
        (600, 0, 0, 6, 0),
        (601, 5, 5, 7, 26),
    ] {
        let at = Context {
            minute,
            day,
            zone,
            date,
        };
        let asked = Asked::new(0, at, &[MANAGER, CLERK]);
        expect_decision_vouched(&base, &trust, &asked, answer);
    }
}
