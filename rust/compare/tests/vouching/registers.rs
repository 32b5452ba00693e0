//! Refusal 25: which bytes are a register.

use crate::setups::*;
use compare::builder::*;
use compare::questions::{at_minute, Asked};
use compare::shop::small_shop;
use compare::trust::{register_of, Statement, Trust};
use compare::{expect_decision_vouched, expect_report_vouched, expect_report_vouched_refused};

/// Expects the small shop's answer for manager and clerk, and its number for the
/// manager: 2 where they are granted, and none by 26.
fn expect_both(register: &[u8], answer: u8) {
    expect_both_of(&small_shop(), register, answer);
}

fn expect_both_of(base: &BaseBuilder, register: &[u8], answer: u8) {
    let (base, at) = (base.bytes(), at_minute(600));
    let trust = Trust {
        register: register.to_vec(),
        threshold: 3,
    };
    let asked = Asked::new(0, at, &[MANAGER, CLERK]);
    expect_decision_vouched(&base, &trust, &asked, answer);
    match answer {
        25 => expect_report_vouched_refused(&base, at, &trust, 0, 13, 25),
        _ => expect_report_vouched(&base, at, &trust, 0, 13, &[if answer == 0 { 2 } else { 0 }]),
    }
}

/// A register of this length in which the clerk trusts the manager, over and over.
fn of_length(length: usize) -> Vec<u8> {
    let statement = says(2, 0, 3).bytes();
    statement.into_iter().cycle().take(length).collect()
}

#[test]
fn an_empty_register_passes() {
    expect_both(&[], 26);
}

#[test]
fn a_register_of_one_statement_passes() {
    expect_both(&of_length(8), 0);
}

#[test]
fn every_other_length_below_24_is_refused() {
    for length in 0..24 {
        let answer = match length {
            0 => 26,
            8 | 16 => 0,
            _ => 25,
        };
        expect_both(&of_length(length), answer);
    }
}

#[test]
fn a_register_of_2048_bytes_passes() {
    expect_both(&of_length(2_040), 0);
    expect_both(&of_length(2_048), 0);
}

#[test]
fn a_register_of_2056_bytes_is_refused() {
    for length in [2_047, 2_049, 2_052, 2_055, 2_056, 2_064, 4_096] {
        expect_both(&of_length(length), 25);
    }
}

/// 65,536 and 65,544 would be 0 and 8 if they were cut to two bytes.
#[test]
fn a_length_is_not_cut() {
    for length in [65_536, 65_544, 65_536 + 2_048, 1 << 20] {
        expect_both(&of_length(length), 25);
    }
}

/// Expects the answer where the last of three statements, between other users, is
/// this one.
fn expect_last(last: Statement, answer: u8) {
    let statements = [says(2, 0, 3), says(1, 0, 1), last];
    expect_both(&register_of(&statements), answer);
}

#[test]
fn issuer_and_requester_are_users_of_the_base() {
    for user in 0..=255 {
        let answer = if user < 4 { 0 } else { 25 };
        expect_last(says(user, 1, 5), answer);
        expect_last(says(1, user, 5), answer);
    }
    expect_last(says(4, 4, 5), 25);
}

#[test]
fn the_permission_is_in_the_base() {
    for permission in 0..=255 {
        let answer = if permission == 0 { 0 } else { 25 };
        expect_last(Statement::always(1, 3, permission, 5), answer);
    }
    let two = small_shop().with_permissions(2);
    for permission in [0, 1] {
        let other = Statement::always(1, 3, permission, 5);
        let register = register_of(&[says(2, 0, 3), other]);
        let asked = Asked::new(0, at_minute(600), &[MANAGER, CLERK]);
        let trust = Trust {
            register,
            threshold: 3,
        };
        expect_decision_vouched(&two.bytes(), &trust, &asked, 0);
    }
}

#[test]
fn a_trust_is_1_to_5() {
    for trust in 0..=255 {
        let answer = if (1..=5).contains(&trust) { 0 } else { 25 };
        expect_last(says(1, 3, trust), answer);
    }
}

#[test]
fn a_first_day_is_not_above_the_last() {
    let with_days = |first, last| says(1, 3, 5).on(first, last);
    for day in [0, 1, 255, 256, 32_767, 32_768, 65_534, 65_535] {
        expect_last(with_days(day, day), 0);
        expect_last(with_days(0, day), 0);
        expect_last(with_days(day, 65_535), 0);
    }
    for (first, last) in [(0, 1), (255, 256), (0x00ff, 0x0100), (0x01ff, 0x0200)] {
        expect_last(with_days(first, last), 0);
        expect_last(with_days(last, first), 25);
    }
    expect_last(with_days(65_535, 0), 25);
}

/// Of 256 statements one is bad.
#[test]
fn a_bad_statement_is_found_at_every_place() {
    for place in 0..256 {
        let mut register = of_length(2_048);
        register[8 * place + 3] = 0;
        expect_both(&register, 25);
    }
}

/// Those between others, of other days, of other permissions and repeated ones.
#[test]
fn statements_without_use_change_nothing() {
    let fits = says(2, 0, 3);
    let others = [
        says(3, 1, 5),
        says(1, 2, 1),
        fits.on(0, 5),
        says(2, 3, 5),
        says(2, 2, 5),
    ];
    for other in others {
        expect_both(&register_of(&[other, fits]), 0);
        expect_both(&register_of(&[fits, other, other, fits]), 0);
    }
    expect_both(&register_of(&others), 26);
}

#[test]
fn a_base_without_users_has_no_statement() {
    let mut shop = small_shop();
    shop.users.clear();
    let asked = Asked::new(0, at_minute(600), &[]);
    for (register, answer) in [(vec![], 12), (of_length(8), 25)] {
        let trust = Trust {
            register,
            threshold: 3,
        };
        expect_decision_vouched(&shop.bytes(), &trust, &asked, answer);
    }
}

#[test]
fn a_base_without_permissions_has_no_statement() {
    let base = BaseBuilder {
        users: small_shop().users,
        ..BaseBuilder::new(3)
    };
    let asked = Asked::new(0, at_minute(600), &[]);
    for (register, answer) in [(vec![], 10), (of_length(8), 25)] {
        let trust = Trust {
            register,
            threshold: 3,
        };
        expect_decision_vouched(&base.bytes(), &trust, &asked, answer);
    }
    expect_report_vouched(&base.bytes(), at_minute(600), &at_3(&[]), 3, 0, &[]);
}

/// All 24 users and all 16 permissions can be named.
#[test]
fn the_last_user_and_permission_can_be_named() {
    let base = alike(24, &[(0, 2, 2)]).with_permissions(16);
    let statement = |issuer, requester, permission| {
        let statements = [
            says(0, 23, 5),
            Statement::always(issuer, requester, permission, 5),
        ];
        at_3(&statements)
    };
    let granted = [[23, 0], [0, 0]];
    expect_of(&base, &statement(23, 22, 15), &granted, 0);
    expect_of(&base, &statement(24, 22, 15), &granted, 25);
    expect_of(&base, &statement(22, 24, 15), &granted, 25);
    expect_of(&base, &statement(23, 22, 16), &granted, 25);
}
