//! Bases and registers that the edges start from, and how to ask about them.

use compare::builder::*;
use compare::calls::Report;
use compare::questions::{at_date, at_minute, Asked, SOME_DATE};
use compare::shop::small_shop;
use compare::shown::RECORD;
use compare::trust::{Statement, Trust};
use compare::{expect_decision_vouched, expect_report_vouched, expect_report_vouched_refused};

/// The small shop's users in the roles they hold. At minute 600 the roles weigh 5,
/// 2 and 1, at minute 480 they weigh 4, 1 and 0; two entries with a sum of 5 are
/// needed.
pub const MANAGER: [u8; 2] = [0, 0];
pub const BUYER: [u8; 2] = [1, 1];
pub const CLERK: [u8; 2] = [2, 2];
pub const OTHER_CLERK: [u8; 2] = [3, 2];

/// A statement for permission 0 on all days.
pub fn says(issuer: u8, requester: u8, trust: u8) -> Statement {
    Statement::always(issuer, requester, 0, trust)
}

/// A register of these statements, with threshold 3.
pub fn at_3(statements: &[Statement]) -> Trust {
    Trust::new(3, statements)
}

/// Expects this answer of the small shop at minute 600.
pub fn expect(trust: &Trust, entries: &[[u8; 2]], answer: u8) {
    expect_of(&small_shop(), trust, entries, answer);
}

/// The same of another base.
pub fn expect_of(base: &BaseBuilder, trust: &Trust, entries: &[[u8; 2]], answer: u8) {
    expect_on(SOME_DATE, base, trust, entries, answer);
}

/// The same on a date.
pub fn expect_on(date: u32, base: &BaseBuilder, trust: &Trust, entries: &[[u8; 2]], answer: u8) {
    let asked = Asked::new(0, at_date(600, date), entries);
    expect_decision_vouched(&base.bytes(), trust, &asked, answer);
}

/// Expects the smallest numbers for a requester at minute 600, with buffers that are
/// just long enough and longer, and 19 with shorter ones.
pub fn expect_numbers(base: &BaseBuilder, trust: &Trust, requester: u32, numbers: &[u8]) {
    expect_numbers_on(SOME_DATE, base, trust, requester, numbers);
}

/// The same on a date.
pub fn expect_numbers_on(
    date: u32,
    base: &BaseBuilder,
    trust: &Trust,
    requester: u32,
    numbers: &[u8],
) {
    let (bytes, at) = (base.bytes(), at_date(600, date));
    let whole = RECORD * numbers.len();
    for length in [whole, whole + 1, whole + 40] {
        expect_report_vouched(&bytes, at, trust, requester, length, numbers);
    }
    for length in [0, whole / 2, whole.saturating_sub(1)] {
        if length < whole {
            expect_report_vouched_refused(&bytes, at, trust, requester, length, 19);
        }
    }
}

/// Expects that permission 0's only smallest group at minute 600 is this one, with
/// the requester first.
pub fn expect_only_group(base: &BaseBuilder, trust: &Trust, group: &[[u8; 2]]) {
    let requester = group[0][0].into();
    expect_numbers(base, trust, requester, &[group.len() as u8]);
    let mut expected = [255; RECORD];
    expected[0] = group.len() as u8;
    expected[1..1 + 2 * group.len()].copy_from_slice(&group.concat());
    let mut found = [0; RECORD];
    let report = Report::For { requester, trust };
    report.by_library(&base.bytes(), at_minute(600), &mut found);
    assert_eq!(found, expected);
}

/// A base of one permission and one role, which weighs 1 and which so many users
/// hold, where these conditions have to hold.
pub fn alike(users: usize, conditions: &[GroupCondition]) -> BaseBuilder {
    BaseBuilder {
        users: vec![User::always(3); users],
        group_clauses: vec![GroupClause::new(0, conditions)],
        policies: vec![Policy::new(0, 0, 1, 0, NO_CONTEXT)],
        ..BaseBuilder::new(1).with_permissions(1)
    }
}

/// These users trust the requester at 5.
pub fn trusted_by(issuers: &[u8], requester: u8) -> Trust {
    let statements: Vec<Statement> = issuers
        .iter()
        .map(|issuer| says(*issuer, requester, 5))
        .collect();
    at_3(&statements)
}
