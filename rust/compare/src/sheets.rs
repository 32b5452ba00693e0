//! Calls on a sheet, and the comparison of their answers and of each byte.

use model::{Context, Reading, Sheet};

use crate::lent::Lent;
use crate::random::Random;
use crate::{hex, library_context};

/// A call on a sheet; the base is handed in beside it.
#[derive(Clone, Copy, Debug)]
pub enum SheetCall {
    Open {
        permission: u32,
    },
    Sign {
        user: u32,
        role: u32,
    },
    /// No base is consulted.
    Withdraw {
        user: u32,
    },
    Ask {
        at: Context,
    },
}

impl SheetCall {
    /// 0 for an opening, 1 for a signing, 2 for a withdrawal, 3 for an asking.
    pub fn kind(self) -> usize {
        match self {
            SheetCall::Open { .. } => 0,
            SheetCall::Sign { .. } => 1,
            SheetCall::Withdraw { .. } => 2,
            SheetCall::Ask { .. } => 3,
        }
    }

    pub fn by_library(self, base: &[u8], sheet: &mut Sheet) -> u32 {
        use release::answers;
        match self {
            SheetCall::Open { permission } => answers::sheet_open(base, permission, sheet),
            SheetCall::Sign { user, role } => answers::sheet_sign(base, user, role, sheet),
            SheetCall::Withdraw { user } => answers::sheet_withdraw(user, sheet),
            SheetCall::Ask { at } => answers::sheet_ask(base, library_context(at), sheet),
        }
    }

    pub fn by_twin(self, base: &[u8], sheet: &mut Sheet) -> u8 {
        match self {
            SheetCall::Open { permission } => twin::sheet_open(base, permission, sheet),
            SheetCall::Sign { user, role } => twin::sheet_sign(base, user, role, sheet),
            SheetCall::Withdraw { user } => twin::sheet_withdraw(user, sheet),
            SheetCall::Ask { at } => twin::sheet_ask(base, at, sheet),
        }
    }

    pub fn by_model(self, reading: Reading, base: &[u8], sheet: &mut Sheet) -> u8 {
        match self {
            SheetCall::Open { permission } => {
                model::sheet_open_as(reading, base, permission, sheet)
            }
            SheetCall::Sign { user, role } => {
                model::sheet_sign_as(reading, base, user, role, sheet)
            }
            SheetCall::Withdraw { user } => model::sheet_withdraw_as(reading, user, sheet),
            SheetCall::Ask { at } => model::sheet_ask_as(reading, base, at, sheet),
        }
    }
}

/// The answer to a call on a lent sheet that the library and the model agree
/// on. They also agree on each byte that the sheet and its guards hold
/// afterwards.
pub fn agreed_call(base: &[u8], call: SheetCall, lent: &mut Lent) -> u8 {
    let before = *lent.sheet();
    let mut models = lent.clone();
    let by_model = call.by_model(Reading::Paper, base, models.sheet());
    let base_before = base.to_vec();
    let by_library = call.by_library(base, lent.sheet());
    let case = || described(&base_before, call, &before);
    assert!(
        by_library == u32::from(by_model),
        "model {by_model}, library {by_library}, {}",
        case()
    );
    if let Some(place) = lent.first_difference(&models) {
        panic!("{by_model}, byte {place} of the sheet differs, {}", case());
    }
    assert!(base == base_before, "the base was written, {}", case());
    by_model
}

/// Asserts that the library and the model both give this answer and leave
/// this sheet, whatever stands around it.
pub fn expect_call(base: &[u8], call: SheetCall, before: Sheet, answer: u8, after: Sheet) {
    let noise = Lent::noisy(&mut Random::new(before[1].into()), before.len());
    for mut lent in [noise.inverted(), noise] {
        *lent.sheet() = before;
        let agreed = agreed_call(base, call, &mut lent);
        let left = *lent.sheet();
        assert!(
            (agreed, left) == (answer, after),
            "expected {answer} and {after:?}, both gave {agreed} and {left:?}, {}",
            described(base, call, &before)
        );
    }
}

fn described(base: &[u8], call: SheetCall, sheet: &Sheet) -> String {
    format!("{call:?}, sheet {sheet:?}, base {}", hex(base))
}
