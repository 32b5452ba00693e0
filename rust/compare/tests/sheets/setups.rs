//! Bases and sheets that the edges start from, and what is expected of calls.

use compare::builder::*;
use compare::lent::Lent;
use compare::questions::{at_date, at_minute, SOME_DATE};
use compare::random::Random;
use compare::sheets::{agreed_call, expect_call, SheetCall};
pub use compare::shop::refused_bases;
use model::{Context, Sheet};

/// The parameter of a user who holds roles 0, 1 and 2.
pub const ALL_ROLES: u32 = 105;

/// Eight users who hold each of three roles, which have weight 1 for two
/// permissions. Each group passes the condition.
pub fn open_base() -> BaseBuilder {
    let policy = |n: u8| Policy::new(n % 3, n / 3, 1, 0, NO_CONTEXT);
    let clause = |permission| GroupClause::new(permission, &[(0, 2, 1)]);
    let parameter = ALL_ROLES;
    BaseBuilder {
        users: vec![User::always(parameter); 8],
        group_clauses: vec![clause(0), clause(1)],
        policies: (0..6).map(policy).collect(),
        ..BaseBuilder::new(3).with_permissions(2)
    }
}

/// The sheet of these entries, with 0 in every byte left.
pub fn sheet(permission: u8, entries: &[[u8; 2]]) -> Sheet {
    let mut sheet = [0; 14];
    (sheet[0], sheet[1]) = (permission, entries.len() as u8);
    sheet[2..][..2 * entries.len()].copy_from_slice(&entries.concat());
    sheet
}

/// A sheet for permission 0 that claims so many entries and has users 200 to
/// 205 in roles 100 to 105, who aren't there.
pub fn claiming(count: u8) -> Sheet {
    [
        0, count, 200, 100, 201, 101, 202, 102, 203, 103, 204, 104, 205, 105,
    ]
}

/// The sheet with another entry at a place from 0 to 5.
pub fn with_entry(mut sheet: Sheet, place: usize, entry: [u8; 2]) -> Sheet {
    sheet[2 + 2 * place..][..2].copy_from_slice(&entry);
    sheet
}

/// Sheets of which each has another byte at every place.
pub fn noisy_sheets() -> [Sheet; 4] {
    let noise = [
        0x5a, 0xc3, 7, 211, 96, 18, 149, 66, 240, 31, 178, 105, 84, 253,
    ];
    [noise, noise.map(|byte: u8| !byte), [0; 14], [255; 14]]
}

/// Expects an opening to be done, or refused, on each noisy sheet.
pub fn expect_open(base: &[u8], permission: u32, answer: u8, after: Sheet) {
    for before in noisy_sheets() {
        let call = SheetCall::Open { permission };
        expect_call(base, call, before, answer, after);
    }
}

/// Expects a signing to be done, with this sheet before and after.
pub fn expect_signed(base: &[u8], user: u32, role: u32, before: Sheet, after: Sheet) {
    expect_call(base, SheetCall::Sign { user, role }, before, 0, after);
}

/// Expects a signing to be refused; no byte of the sheet changes.
pub fn expect_refused(base: &[u8], user: u32, role: u32, sheet: Sheet, refusal: u8) {
    let call = SheetCall::Sign { user, role };
    expect_call(base, call, sheet, refusal, sheet);
}

/// Expects a withdrawal to be done, with this sheet before and after.
pub fn expect_withdrawn(user: u32, before: Sheet, after: Sheet) {
    expect_call(&[], SheetCall::Withdraw { user }, before, 0, after);
}

/// Expects a withdrawal to be refused by 23; no byte of the sheet changes.
pub fn expect_no_entry(user: u32, sheet: Sheet) {
    expect_call(&[], SheetCall::Withdraw { user }, sheet, 23, sheet);
}

/// Expects this answer at minute 600.
pub fn expect_ask(base: &[u8], sheet: Sheet, answer: u8) {
    expect_ask_at(base, at_minute(600), sheet, answer);
}

/// Expects this answer; no byte of the sheet changes.
pub fn expect_ask_at(base: &[u8], at: Context, sheet: Sheet, answer: u8) {
    expect_call(base, SheetCall::Ask { at }, sheet, answer, sheet);
}

/// The small shop's users in the roles they hold.
pub const MANAGER: [u8; 2] = [0, 0];
pub const BUYER: [u8; 2] = [1, 1];
pub const CLERK: [u8; 2] = [2, 2];

/// Makes these calls on one sheet and expects their answers.
pub struct Day {
    lent: Lent,
}

impl Day {
    pub fn new() -> Day {
        Day {
            lent: Lent::noisy(&mut Random::new(7), 14),
        }
    }

    fn expect(&mut self, base: &[u8], call: SheetCall, answer: u8) {
        let agreed = agreed_call(base, call, &mut self.lent);
        assert_eq!(agreed, answer, "{call:?}");
    }

    pub fn open(&mut self, base: &BaseBuilder, permission: u32, answer: u8) {
        self.expect(&base.bytes(), SheetCall::Open { permission }, answer);
    }

    pub fn sign(&mut self, base: &BaseBuilder, user: u32, role: u32, answer: u8) {
        self.expect(&base.bytes(), SheetCall::Sign { user, role }, answer);
    }

    pub fn withdraw(&mut self, user: u32, answer: u8) {
        self.expect(&[], SheetCall::Withdraw { user }, answer);
    }

    pub fn ask(&mut self, base: &BaseBuilder, answer: u8) {
        self.ask_on(SOME_DATE, base, answer);
    }

    pub fn ask_on(&mut self, date: u32, base: &BaseBuilder, answer: u8) {
        let at = at_date(600, date);
        self.expect(&base.bytes(), SheetCall::Ask { at }, answer);
    }

    pub fn holds(&mut self, permission: u8, entries: &[[u8; 2]]) {
        assert_eq!(*self.lent.sheet(), sheet(permission, entries));
    }
}
