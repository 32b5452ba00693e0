//! The order of refusals: 1 to 9, 25, 27, 10 to 15, 24, 26, 16 and 17 for a
//! decision, 1 to 9, 25, 27, 11, 13 and 19 for a report.

use crate::setups::*;
use compare::builder::*;
use compare::calls::Report;
use compare::questions::{at_minute, Asked, SOME_DATE};
use compare::shop::{refused_bases, small_shop};
use compare::trust::{register_of, Trust};
use compare::{expect_decision_vouched, expect_report_vouched_refused};

/// Registers that 25 refuses: two of another length, and two sound but for the last
/// statement.
fn no_registers() -> [Vec<u8>; 4] {
    let sound = says(2, 0, 5);
    [
        vec![0; 7],
        register_of(&[sound; 257]),
        register_of(&[sound, sound, says(2, 0, 6)]),
        register_of(&[sound, says(4, 0, 5)]),
    ]
}

const NO_THRESHOLDS: [u32; 4] = [0, 6, 257, u32::MAX];

/// Expects this answer of the small shop.
fn expect_shop(permission: u32, minute: u32, trust: &Trust, group: &[u8], answer: u8) {
    let asked = Asked {
        permission,
        at: at_minute(minute),
        group: group.to_vec(),
    };
    expect_decision_vouched(&small_shop().bytes(), trust, &asked, answer);
}

/// Expects this refusal of a report on the small shop.
fn expect_shop_report(minute: u32, trust: &Trust, requester: u32, length: usize, refusal: u8) {
    let (base, at) = (small_shop().bytes(), at_minute(minute));
    expect_report_vouched_refused(&base, at, trust, requester, length, refusal);
}

/// With every other fault of the call there is.
#[test]
fn refusals_1_to_9_beat_25_and_27() {
    for (refusal, base) in (1..).zip(refused_bases()) {
        for register in no_registers() {
            let trust = Trust {
                register,
                threshold: 0,
            };
            let asked = Asked::new(1, at_minute(1440), &[]);
            expect_decision_vouched(&base, &trust, &asked, refusal);
            expect_report_vouched_refused(&base, at_minute(1440), &trust, 4, 0, refusal);
        }
    }
}

#[test]
fn refusals_1_to_9_come_with_every_sound_register() {
    for (refusal, base) in (1..).zip(refused_bases()) {
        for trust in [at_3(&[]), at_3(&[says(2, 0, 3)])] {
            let asked = Asked::new(0, at_minute(600), &[MANAGER, CLERK]);
            expect_decision_vouched(&base, &trust, &asked, refusal);
            expect_report_vouched_refused(&base, at_minute(600), &trust, 0, 13, refusal);
        }
    }
}

#[test]
fn refusal_25_beats_27() {
    for register in no_registers() {
        for threshold in NO_THRESHOLDS {
            let register = register.clone();
            let trust = Trust {
                register,
                threshold,
            };
            expect_shop(0, 600, &trust, &[0, 0, 2, 2], 25);
            expect_shop_report(600, &trust, 0, 13, 25);
        }
    }
    for threshold in NO_THRESHOLDS {
        let trust = Trust::new(threshold, &[says(2, 0, 5)]);
        expect_shop(0, 600, &trust, &[0, 0, 2, 2], 27);
        expect_shop_report(600, &trust, 0, 13, 27);
    }
}

#[test]
fn refusal_25_beats_10_to_17_and_24() {
    for register in no_registers() {
        let trust = Trust {
            register,
            threshold: 3,
        };
        expect_shop(1, 600, &trust, &[0, 0, 2, 2], 25);
        expect_shop(256, 1440, &trust, &[], 25);
        expect_shop(0, 1440, &trust, &[0, 0, 2, 2], 25);
        for group in [
            &[0, 0, 2][..],
            &[4, 2],
            &[0, 0, 0, 1],
            &[2, 1],
            &[2, 2],
            &[0, 0],
        ] {
            expect_shop(0, 480, &trust, group, 25);
        }
        expect_shop_report(1440, &trust, 4, 0, 25);
        expect_shop_report(600, &trust, 4, 0, 25);
        expect_shop_report(600, &trust, 0, 0, 25);
    }
}

#[test]
fn refusal_27_beats_10_to_17_and_24() {
    for threshold in NO_THRESHOLDS {
        let trust = Trust::new(threshold, &[says(2, 0, 5)]);
        expect_shop(1, 600, &trust, &[0, 0, 2, 2], 27);
        expect_shop(256, 1440, &trust, &[], 27);
        expect_shop(0, 1440, &trust, &[0, 0, 2, 2], 27);
        for group in [
            &[0, 0, 2][..],
            &[4, 2],
            &[0, 0, 0, 1],
            &[2, 1],
            &[2, 2],
            &[0, 0],
        ] {
            expect_shop(0, 480, &trust, group, 27);
        }
        expect_shop_report(1440, &trust, 4, 0, 27);
        expect_shop_report(600, &trust, 4, 0, 27);
        expect_shop_report(600, &trust, 0, 0, 27);
    }
}

#[test]
fn refusals_10_to_15_beat_26() {
    let nobody = at_3(&[]);
    expect_shop(1, 1440, &nobody, &[0, 0, 2, 2], 10);
    expect_shop(256, 600, &nobody, &[0, 0, 2, 2], 10);
    expect_shop(0, 1440, &nobody, &[0, 0, 2, 2], 11);
    expect_shop(0, 600, &nobody, &[0, 0, 2, 2, 1], 12);
    expect_shop(0, 600, &nobody, &[0, 0, 2, 2, 4, 2], 13);
    expect_shop(0, 600, &nobody, &[0, 0, 2, 2, 3, 3], 13);
    expect_shop(0, 600, &nobody, &[0, 0, 2, 2, 0, 1], 14);
    expect_shop(0, 600, &nobody, &[0, 0, 2, 2, 3, 1], 15);
    expect_shop(0, 600, &nobody, &[2, 1, 0, 0], 15);
    expect_shop(0, 600, &nobody, &[0, 0, 2, 2], 26);
}

/// The other clerk's days are over. Nobody vouches for the manager.
#[test]
fn refusal_24_beats_26() {
    let mut shop = small_shop();
    shop.users[3].set_days(0, SOME_DATE as u16 - 1);
    let nobody = at_3(&[]);
    expect_of(&shop, &nobody, &[MANAGER, CLERK], 26);
    expect_of(&shop, &nobody, &[MANAGER, OTHER_CLERK], 24);
    expect_of(&shop, &nobody, &[MANAGER, CLERK, OTHER_CLERK], 24);
    expect_of(&shop, &nobody, &[MANAGER, OTHER_CLERK, CLERK], 24);
    expect_of(&shop, &nobody, &[OTHER_CLERK, MANAGER], 24);
    let vouched = at_3(&[says(3, 0, 5)]);
    expect_of(&shop, &vouched, &[MANAGER, OTHER_CLERK], 24);
}

/// Early the clerks have no weight.
#[test]
fn refusal_26_beats_16() {
    let buyer_alone = at_3(&[says(1, 0, 5), says(3, 0, 5)]);
    expect_shop(0, 480, &buyer_alone, &[0, 0, 2, 2], 26);
    expect_shop(0, 480, &buyer_alone, &[0, 0, 3, 2, 2, 2], 26);
    expect_shop(0, 480, &buyer_alone, &[0, 0, 2, 2, 3, 2], 26);
    expect_shop(0, 480, &buyer_alone, &[0, 0, 3, 2], 16);
    expect_shop(0, 480, &buyer_alone, &[0, 0, 1, 1, 3, 2], 16);
    expect_shop(0, 480, &buyer_alone, &[0, 0, 1, 1], 0);
    expect_shop(0, 480, &at_3(&[]), &[2, 2], 16);
    expect_shop(0, 480, &at_3(&[]), &[2, 2, 0, 0], 26);
}

#[test]
fn refusal_26_beats_17() {
    let mut shop = small_shop();
    shop.group_clauses.clear();
    expect_of(&shop, &at_3(&[]), &[MANAGER, CLERK], 26);
    expect_of(&shop, &at_3(&[says(2, 0, 3)]), &[MANAGER, CLERK], 17);
    expect_of(&shop, &at_3(&[]), &[MANAGER], 17);
    expect(&at_3(&[]), &[BUYER, CLERK], 26);
    expect(&at_3(&[says(2, 1, 3)]), &[BUYER, CLERK], 17);
}

/// The last of six entries, and each before it.
#[test]
fn an_entry_without_a_statement_is_found_at_every_place() {
    let mut base = alike(7, &[(0, 2, 1)]);
    base.roles = 2;
    base.users = vec![User::always(15); 7];
    let trust = trusted_by(&[1, 2, 3, 4, 5], 0);
    let group = [0, 1, 2, 3, 4, 5].map(|user| [user, 0]);
    expect_of(&base, &trust, &group, 0);
    for place in 1..6 {
        let mut group = group;
        group[place] = [6, 0];
        expect_of(&base, &trust, &group, 26);
        for other in (0..6).filter(|other| *other != place) {
            let mut group = group;
            group[other][1] = 1;
            expect_of(&base, &trust, &group, 26);
        }
    }
}

#[test]
fn refusal_11_beats_13_in_a_report() {
    for requester in [4, 255, 256, u32::MAX] {
        for length in [0, 13] {
            expect_shop_report(1440, &at_3(&[]), requester, length, 11);
            expect_shop_report(u32::MAX, &at_3(&[]), requester, length, 11);
            expect_shop_report(1439, &at_3(&[]), requester, length, 13);
        }
    }
    expect_shop_report(1440, &at_3(&[]), 0, 13, 11);
}

#[test]
fn refusal_13_beats_19_in_a_report() {
    for length in [0, 1, 12] {
        expect_shop_report(600, &at_3(&[]), 4, length, 13);
        expect_shop_report(600, &at_3(&[]), 3, length, 19);
    }
}

/// Nobody vouches for the manager, and that refuses no report.
#[test]
fn no_report_is_refused_by_10_12_14_to_17_24_or_26() {
    let mut shop = small_shop();
    expect_numbers(&shop, &at_3(&[]), 0, &[0]);
    shop.users[0].set_days(0, 0);
    expect_numbers(&shop, &at_3(&[]), 0, &[0]);
    shop.users[0].parameter = 1;
    expect_numbers(&shop, &at_3(&[]), 0, &[0]);
    shop.policies.clear();
    shop.group_clauses.clear();
    expect_numbers(&shop, &at_3(&[]), 0, &[0]);
    let empty = shop.with_permissions(0);
    let report = Report::For {
        requester: 0,
        trust: &at_3(&[]),
    };
    let answer = report.by_library(&empty.bytes(), at_minute(600), &mut []);
    assert_eq!((answer.refusal, answer.count), (0, 0));
}

#[test]
fn with_all_faults_the_first_is_named_and_then_the_next() {
    let mut shop = small_shop();
    shop.users[1].set_days(0, SOME_DATE as u16 - 1);
    let base = shop.bytes();
    let faults = [0, 0, 2, 2, 1, 1, 3, 0, 0, 0, 9, 9, 9];
    let expect = |permission, minute, trust: &Trust, group: &[u8], answer| {
        let asked = Asked {
            permission,
            at: at_minute(minute),
            group: group.to_vec(),
        };
        expect_decision_vouched(&base, trust, &asked, answer);
    };
    let no_register = Trust {
        register: vec![0; 9],
        threshold: 0,
    };
    expect(1, 1440, &no_register, &faults, 25);
    expect(1, 1440, &Trust::new(0, &[]), &faults, 27);
    expect(1, 1440, &at_3(&[]), &faults, 10);
    expect(0, 1440, &at_3(&[]), &faults, 11);
    expect(0, 480, &at_3(&[]), &faults, 12);
    expect(0, 480, &at_3(&[]), &faults[..12], 13);
    expect(0, 480, &at_3(&[]), &faults[..10], 14);
    expect(0, 480, &at_3(&[]), &faults[..8], 15);
    expect(0, 480, &at_3(&[]), &faults[..6], 24);
    expect(0, 480, &at_3(&[]), &faults[..4], 26);
    expect(0, 480, &at_3(&[says(2, 0, 5)]), &faults[..4], 16);
    expect(0, 480, &at_3(&[]), &faults[..2], 17);
}
