//! Refusals 1 to 9 come before 11, and 11 before 19. Each carries 0 and writes
//! nothing. Without its fault each base would have one permission to release.

use compare::builder::*;
use compare::expect_report_refused;
use compare::questions::{at_date, at_minute};
use compare::shop::small_shop;
use model::Context;

/// The contexts in range and out of range that a base is refused in.
fn contexts() -> [Context; 5] {
    let at = at_minute(600);
    [
        at,
        at_minute(1440),
        Context { day: 7, ..at },
        Context { zone: 256, ..at },
        at_date(600, 65_536),
    ]
}

fn refused(base: &[u8], refusal: u8) {
    for at in contexts() {
        for length in [0, 12, 13, 14, 300] {
            expect_report_refused(base, at, length, refusal);
        }
    }
}

fn refused_after(change: impl FnOnce(&mut BaseBuilder), refusal: u8) {
    let mut base = small_shop();
    change(&mut base);
    refused(&base.bytes(), refusal);
}

#[test]
fn refusal_1() {
    refused(&[], 1);
    refused(&BaseBuilder::new(1).bytes()[1..], 1);
    let sound = small_shop().bytes();
    let mut bytes = vec![0; 2_461];
    let start = bytes.len() - sound.len();
    bytes[start..].copy_from_slice(&sound);
    refused(&bytes, 1);
}

#[test]
fn refusal_2() {
    let base = small_shop();
    refused(&base.bytes_with(|trailer| trailer.letters[3] = b'q'), 2);
    refused(&base.bytes_with(|trailer| trailer.letters = OLD_LETTERS), 2);
    refused(&base.old_bytes(OLD_LETTERS), 2);
}

#[test]
fn refusal_3() {
    let base = small_shop();
    refused(&base.bytes_with(|trailer| trailer.zeros[2] = 1), 3);
    refused(&base.bytes_with(|trailer| trailer.roles = 9), 3);
    refused(&base.bytes_with(|trailer| trailer.places[2].count = 2), 3);
    refused(&base.old_bytes(LETTERS), 3);
}

#[test]
fn refusal_4() {
    refused_after(|base| base.hierarchy[1].senior = 2, 4);
}

#[test]
fn refusal_5() {
    refused_after(|base| base.users[3].parameter = 0, 5);
    refused_after(|base| base.users[3].parameter = 11, 5);
    refused_after(|base| base.users[3].set_days(1, 0), 5);
}

#[test]
fn refusal_6() {
    refused_after(|base| base.group_clauses[0].permission = 1, 6);
    refused_after(|base| base.group_clauses[0].count = 1, 6);
    refused_after(|base| base.permissions.clear(), 6);
}

#[test]
fn refusal_7() {
    refused_after(|base| base.context_clauses[0].conditions[0].2 = 1440, 7);
}

#[test]
fn refusal_8() {
    refused_after(|base| base.policies[2].weight = 0, 8);
}

#[test]
fn refusal_9() {
    let (a, b) = (1, 1);
    refused_after(
        |base| base.exclusions = vec![Exclusion { kind: 0, a, b }],
        9,
    );
}

#[test]
fn refusal_11_comes_before_19() {
    for at in &contexts()[1..] {
        for length in [0, 12, 13, 300] {
            expect_report_refused(&small_shop().bytes(), *at, length, 11);
        }
    }
    expect_report_refused(&small_shop().bytes(), at_minute(1439), 12, 19);
}

#[test]
fn refusal_11_without_permissions() {
    let base = BaseBuilder::new(1).bytes();
    for at in &contexts()[1..] {
        expect_report_refused(&base, *at, 0, 11);
    }
}

#[test]
fn the_last_context_in_range_is_allowed() {
    let at = Context {
        minute: 1439,
        day: 6,
        zone: 255,
        date: 65_535,
    };
    compare::expect_report(&small_shop().bytes(), at, 13, &[2]);
}

#[test]
fn numbers_of_a_context_are_not_cut() {
    let at = at_minute(600);
    let cut = [
        at_minute(65_536 + 600),
        at_minute(u32::MAX),
        Context { day: 256, ..at },
        Context { day: 65_536, ..at },
        Context { zone: 512, ..at },
        Context {
            zone: u32::MAX,
            ..at
        },
        at_date(600, 65_536 + 600),
        at_date(600, 1 << 24),
        at_date(600, u32::MAX),
    ];
    for at in cut {
        expect_report_refused(&small_shop().bytes(), at, 13, 11);
    }
}
