//! Trust and threshold: refusal 27, and a trust of at least the threshold.

use crate::setups::*;
use compare::questions::{at_minute, Asked};
use compare::shop::small_shop;
use compare::trust::{register_of, Trust};
use compare::{expect_decision_vouched, expect_report_vouched, expect_report_vouched_refused};

/// Expects the small shop's answer for manager and clerk, who trusts at this, and the
/// manager's number.
fn expect_at(trust: u8, threshold: u32, answer: u8) {
    let (base, at) = (small_shop().bytes(), at_minute(600));
    let trust = Trust::new(threshold, &[says(2, 0, trust)]);
    let asked = Asked::new(0, at, &[MANAGER, CLERK]);
    expect_decision_vouched(&base, &trust, &asked, answer);
    match answer {
        27 => expect_report_vouched_refused(&base, at, &trust, 0, 13, 27),
        0 => expect_report_vouched(&base, at, &trust, 0, 13, &[2]),
        _ => expect_report_vouched(&base, at, &trust, 0, 13, &[0]),
    }
}

#[test]
fn a_trust_at_the_threshold_or_above_suffices() {
    for threshold in 1..=5 {
        for trust in 1..=5 {
            let answer = if u32::from(trust) >= threshold { 0 } else { 26 };
            expect_at(trust, threshold, answer);
        }
    }
}

#[test]
fn thresholds_0_and_6_are_refused() {
    for threshold in [0, 6, 7, 100, 255] {
        expect_at(5, threshold, 27);
    }
}

/// 257 would be 1 if it were cut to a byte, 65,537 if it were cut to two.
#[test]
fn a_threshold_is_not_cut() {
    for threshold in [256, 257, 261, 512 + 3, 65_536, 65_537, 1 << 24, u32::MAX] {
        expect_at(5, threshold, 27);
    }
    for power in 3..32 {
        expect_at(5, (1 << power) + 1, 27);
    }
}

/// Of four users the first requests; the others trust at 1, 3 and 5.
#[test]
fn each_users_own_trust_counts() {
    let base = alike(4, &[(0, 2, 1)]);
    let statements = [(1, 1), (2, 3), (3, 5)].map(|(user, trust)| says(user, 0, trust));
    for threshold in 1..=5 {
        let trust = Trust::new(threshold, &statements);
        for statement in statements {
            let suffices = u32::from(statement.trust) >= threshold;
            let answer = if suffices { 0 } else { 26 };
            let group = [[0, 0], [statement.issuer, 0]];
            expect_of(&base, &trust, &group, answer);
        }
        let all = [[0, 0], [3, 0], [2, 0], [1, 0]];
        expect_of(&base, &trust, &all, if threshold == 1 { 0 } else { 26 });
        expect_of(
            &base,
            &trust,
            &all[..3],
            if threshold <= 3 { 0 } else { 26 },
        );
    }
}

/// The lowest trust among several statements doesn't count, nor does their sum.
#[test]
fn of_several_statements_one_has_to_suffice() {
    let two = [MANAGER, CLERK];
    expect(&Trust::new(4, &[says(2, 0, 1), says(2, 0, 4)]), &two, 0);
    expect(&Trust::new(4, &[says(2, 0, 4), says(2, 0, 1)]), &two, 0);
    expect(&Trust::new(4, &[says(2, 0, 2), says(2, 0, 2)]), &two, 26);
    expect(&Trust::new(4, &[says(2, 0, 3); 256]), &two, 26);
}

#[test]
fn a_threshold_is_checked_though_nobody_has_to_vouch() {
    for threshold in [0, 6, 257] {
        let trust = Trust {
            register: register_of(&[]),
            threshold,
        };
        expect(&trust, &[MANAGER], 27);
        expect(&trust, &[], 27);
    }
}
