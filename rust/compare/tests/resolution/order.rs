//! The order of refusals: 1 to 9, 22, 10 to 15, 24, 16 and 17 for a decision, 1 to
//! 9, 22, 11 and 19 for a report.

use compare::lists::{ILLEGAL, LEGAL};
use compare::questions::{at_minute, Asked};
use compare::shop::{refused_bases, small_shop};
use compare::{expect_decision_by, expect_report_by_refused};

const NO_LIST: [&[u8]; 4] = [&[], &[0, 0], &[3], &[0, 1, 2, 0]];

/// Expects this answer of the small shop.
fn expect_shop(permission: u32, minute: u32, list: &[u8], group: &[u8], answer: u8) {
    let asked = Asked {
        permission,
        at: at_minute(minute),
        group: group.to_vec(),
    };
    expect_decision_by(&small_shop().bytes(), list, &asked, answer);
}

/// Expects this refusal of a report on the small shop.
fn expect_shop_report(minute: u32, list: &[u8], length: usize, refusal: u8) {
    let base = small_shop().bytes();
    expect_report_by_refused(&base, at_minute(minute), list, length, refusal);
}

/// With every other fault of the call there is.
#[test]
fn refusals_1_to_9_beat_22() {
    for (refusal, base) in (1..).zip(refused_bases()) {
        for list in NO_LIST {
            let asked = Asked::new(1, at_minute(1440), &[]);
            expect_decision_by(&base, list, &asked, refusal);
            expect_report_by_refused(&base, at_minute(1440), list, 0, refusal);
        }
    }
}

#[test]
fn refusals_1_to_9_come_with_every_list() {
    for (refusal, base) in (1..).zip(refused_bases()) {
        for list in LEGAL {
            let asked = Asked::new(0, at_minute(600), &[[0, 0], [2, 2]]);
            expect_decision_by(&base, list, &asked, refusal);
            expect_report_by_refused(&base, at_minute(600), list, 13, refusal);
        }
    }
}

#[test]
fn refusal_22_beats_10() {
    for list in NO_LIST {
        expect_shop(1, 600, list, &[0, 0, 2, 2], 22);
        expect_shop(256, 600, list, &[0, 0, 2, 2], 22);
        expect_shop(1, 1440, list, &[], 22);
    }
    expect_shop(1, 600, &[0], &[0, 0, 2, 2], 10);
    expect_shop(256, 600, &[0], &[0, 0, 2, 2], 10);
}

#[test]
fn refusal_22_beats_11() {
    for list in NO_LIST {
        expect_shop(0, 1440, list, &[0, 0, 2, 2], 22);
        expect_shop_report(1440, list, 13, 22);
        expect_shop_report(1440, list, 0, 22);
    }
    expect_shop(0, 1440, &[1, 2], &[0, 0, 2, 2], 11);
    expect_shop_report(1440, &[1, 2], 13, 11);
    expect_shop_report(1440, &[1, 2], 0, 11);
}

#[test]
fn refusal_22_beats_12_to_17() {
    let groups = [
        (12, &[0, 0, 2][..]),
        (13, &[4, 2]),
        (14, &[0, 0, 0, 1]),
        (15, &[2, 1]),
        (16, &[2, 2]),
        (17, &[0, 0]),
    ];
    for (answer, group) in groups {
        for list in NO_LIST {
            expect_shop(0, 480, list, group, 22);
        }
        for list in LEGAL {
            expect_shop(0, 480, list, group, answer);
        }
    }
}

#[test]
fn refusal_22_beats_19() {
    for list in NO_LIST {
        expect_shop_report(600, list, 0, 22);
        expect_shop_report(600, list, 12, 22);
        expect_shop_report(600, list, 13, 22);
        expect_shop_report(600, list, 300, 22);
    }
    for list in LEGAL {
        expect_shop_report(600, list, 12, 19);
    }
}

#[test]
fn with_all_faults_the_first_is_named_and_then_the_next() {
    let faults = [1, 0, 0, 0, 0, 0, 9, 9, 9];
    for list in ILLEGAL {
        expect_shop(1, 1440, list, &faults, 22);
    }
    expect_shop(1, 1440, &[2, 0, 1], &faults, 10);
    expect_shop(0, 1440, &[2, 0, 1], &faults, 11);
    expect_shop(0, 480, &[2, 0, 1], &faults, 12);
    expect_shop(0, 480, &[2, 0, 1], &faults[..8], 13);
    expect_shop(0, 480, &[2, 0, 1], &faults[..6], 14);
    expect_shop(0, 480, &[2, 0, 1], &faults[..4], 15);
    expect_shop(0, 480, &[2, 0, 1], &[2, 2], 16);
    expect_shop(0, 480, &[2, 0, 1], &[0, 0], 17);
    expect_shop(0, 480, &[2, 0, 1], &[0, 0, 1, 1], 0);
}
