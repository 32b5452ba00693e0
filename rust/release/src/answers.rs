//! The same calls with the library's own answers: a refusal's number, and the
//! count beside it. They lend the library the caller's buffers as they are.

use crate::context::Context;
use crate::library;
use crate::refusal::{result_of, Refusal};
use crate::sheet::SHEET_BYTES;

/// 0 or a refusal's number, and the number that the answer carries.
#[derive(Clone, Copy, Debug, PartialEq, Eq, Hash)]
pub struct Answer {
    /// 0 for done, or the refusal's number.
    pub refusal: u32,
    /// What was counted; of most refusals 0.
    pub count: u32,
}

impl Answer {
    /// The answer in refusal + 256 * count.
    fn from_number(number: u64) -> Answer {
        let count = u32::try_from(number / 256).expect("the count has 4 bytes at most");
        Answer {
            refusal: (number % 256) as u32,
            count,
        }
    }

    /// The count, or the refusal.
    pub(crate) fn counted(self) -> Result<usize, Refusal> {
        result_of(self.refusal)?;
        Ok(self.count as usize)
    }
}

/// The base check: 0, or the first of refusals 1 to 9 that applies.
///
/// ```
/// use release::answers;
/// use release::example::SMALL_SHOP;
///
/// assert_eq!(answers::check(&SMALL_SHOP), 0);
/// assert_eq!(answers::check(&[0; 36]), 2);
/// ```
pub fn check(base: &[u8]) -> u32 {
    library::check(base)
}

/// The decision for a group: 0 if it is granted the permission, or the first
/// of refusals 1 to 15, 24, 16 and 17 that applies.
///
/// ```
/// use release::example::SMALL_SHOP;
/// use release::{answers, Context};
///
/// let at = Context::new(600, 0, 0, 900);
/// assert_eq!(answers::decide(&SMALL_SHOP, 0, at, &[0, 0, 2, 2]), 0);
/// assert_eq!(answers::decide(&SMALL_SHOP, 256, at, &[0, 0, 2, 2]), 10);
///
/// let no_date = Context::new(600, 0, 0, 65_536);
/// assert_eq!(answers::decide(&SMALL_SHOP, 0, no_date, &[0, 0, 2, 2]), 11);
/// ```
pub fn decide(base: &[u8], permission: u32, at: Context, group: &[u8]) -> u32 {
    library::decide(base, permission, at, group)
}

/// The same by a resolution list, whose bytes are rules: 0 if the group is
/// granted the permission, or the first of refusals 1 to 9, 22, 10 to 15, 24, 16
/// and 17 that applies. An empty list is refused by 22; without a list it is
/// [`decide`].
///
/// ```
/// use release::example::SMALL_SHOP;
/// use release::{answers, Context};
///
/// let at = Context::new(600, 0, 0, 900);
/// let by = |list: &[u8]| answers::decide_by(&SMALL_SHOP, 0, at, list, &[0, 0, 2, 2]);
/// assert_eq!(by(&[0, 2]), 0);
/// assert_eq!(by(&[]), 22);
/// assert_eq!(answers::decide_by(&SMALL_SHOP, 256, at, &[0, 0], &[]), 22);
/// assert_eq!(answers::decide_by(&SMALL_SHOP, 256, at, &[0], &[]), 10);
/// ```
pub fn decide_by(base: &[u8], permission: u32, at: Context, list: &[u8], group: &[u8]) -> u32 {
    library::decide_by(base, permission, at, list, group)
}

/// Writes 13 bytes for each permission into the buffer's first bytes: the
/// number of a smallest group's entries, the group and 255 in every byte left.
/// Users whose days don't include the date are in no group. The answer is 0 and
/// the number of permissions that have a group, or the first of refusals 1 to 9,
/// 11 and 19 that applies and 0. No refusal writes.
///
/// ```
/// use release::answers::{self, Answer};
/// use release::example::SMALL_SHOP;
/// use release::Context;
///
/// let at = Context::new(480, 0, 0, 900);
/// let mut out = [7; 14];
/// let done = Answer { refusal: 0, count: 1 };
/// assert_eq!(answers::report(&SMALL_SHOP, at, &mut out), done);
/// assert_eq!(out, [2, 0, 0, 1, 1, 255, 255, 255, 255, 255, 255, 255, 255, 7]);
///
/// let refused = Answer { refusal: 19, count: 0 };
/// assert_eq!(answers::report(&SMALL_SHOP, at, &mut out[..12]), refused);
/// ```
pub fn report(base: &[u8], at: Context, out: &mut [u8]) -> Answer {
    Answer::from_number(library::report(base, at, out))
}

/// The same by a resolution list, for groups that [`decide_by`] grants with that
/// list. The answer is 0 and the number of permissions that have a group, or the
/// first of refusals 1 to 9, 22, 11 and 19 that applies and 0. No refusal writes.
///
/// ```
/// use release::answers::{self, Answer};
/// use release::example::SMALL_SHOP;
/// use release::Context;
///
/// let at = Context::new(480, 0, 0, 900);
/// let mut out = [7; 14];
/// let done = Answer { refusal: 0, count: 1 };
/// assert_eq!(answers::report_by(&SMALL_SHOP, at, &[1], &mut out), done);
/// assert_eq!(out, [2, 0, 0, 1, 1, 255, 255, 255, 255, 255, 255, 255, 255, 7]);
///
/// let refused = Answer { refusal: 22, count: 0 };
/// assert_eq!(answers::report_by(&SMALL_SHOP, at, &[1, 1], &mut out), refused);
/// ```
pub fn report_by(base: &[u8], at: Context, list: &[u8], out: &mut [u8]) -> Answer {
    Answer::from_number(library::report_by(base, at, list, out))
}

/// The decision for a group whose first entry is the requester's, where each other
/// entry's user has to vouch for the requester by one statement of the register,
/// of a trust of at least the threshold: 0 if the group is granted the permission,
/// or the first of refusals 1 to 9, 25, 27, 10 to 15, 24, 26, 16 and 17 that
/// applies.
///
/// ```
/// use release::example::SMALL_SHOP;
/// use release::{answers, Context};
///
/// let at = Context::new(600, 0, 0, 900);
/// // User 2 trusts user 0 at 3 for permission 0, from day 0 to day 900.
/// let register = [2, 0, 0, 3, 0, 0, 0x84, 0x03];
/// let vouched = |threshold, group: &[u8]| {
///     answers::decide_vouched(&SMALL_SHOP, 0, at, &register, threshold, group)
/// };
/// assert_eq!(vouched(3, &[0, 0, 2, 2]), 0);
/// assert_eq!(vouched(4, &[0, 0, 2, 2]), 26);
/// assert_eq!(vouched(3, &[2, 2, 0, 0]), 26);
/// assert_eq!(vouched(259, &[0, 0, 2, 2]), 27);
/// ```
pub fn decide_vouched(
    base: &[u8],
    permission: u32,
    at: Context,
    register: &[u8],
    threshold: u32,
    group: &[u8],
) -> u32 {
    library::decide_vouched(base, permission, at, register, threshold, group)
}

/// Writes 13 bytes for each permission into the buffer's first bytes: the number
/// of entries of a smallest group that [`decide_vouched`] grants with the requester
/// first, the group, the others by rising user, and 255 in every byte left. The
/// answer is 0 and the number of permissions that have a group, or the first of
/// refusals 1 to 9, 25, 27, 11, 13 and 19 that applies and 0. No refusal writes.
///
/// ```
/// use release::answers::{self, Answer};
/// use release::example::SMALL_SHOP;
/// use release::Context;
///
/// let at = Context::new(600, 0, 0, 900);
/// let register = [0, 2, 0, 3, 0, 0, 0x84, 0x03];
/// let mut out = [7; 14];
/// let done = Answer { refusal: 0, count: 1 };
/// let answer = answers::report_vouched(&SMALL_SHOP, at, &register, 3, 2, &mut out);
/// assert_eq!(answer, done);
/// assert_eq!(out, [2, 2, 2, 0, 0, 255, 255, 255, 255, 255, 255, 255, 255, 7]);
///
/// let refused = Answer { refusal: 13, count: 0 };
/// let answer = answers::report_vouched(&SMALL_SHOP, at, &register, 3, 258, &mut out);
/// assert_eq!(answer, refused);
/// ```
pub fn report_vouched(
    base: &[u8],
    at: Context,
    register: &[u8],
    threshold: u32,
    requester: u32,
    out: &mut [u8],
) -> Answer {
    let number = library::report_vouched(base, at, register, threshold, requester, out);
    Answer::from_number(number)
}

/// Answers each query, 14 bytes: its permission, the number of its entries that
/// count, 1 to 6, and six entries. Its answer is that of [`decide`] for its
/// permission and those entries, in its byte of the buffer, in order: 0, or the
/// first of 10, 12 to 15, 24, 16 and 17 that applies. Later bytes keep their
/// contents. The answer to the call is 0, or the first of refusals 1 to 9, 11 and 28
/// that applies. No refusal writes.
///
/// ```
/// use release::example::SMALL_SHOP;
/// use release::{answers, Context};
///
/// let at = Context::new(600, 0, 0, 900);
/// let queries = [
///     [0, 2, 0, 0, 2, 2, 0, 0, 0, 0, 0, 0, 0, 0],
///     [1, 0, 0, 0, 2, 2, 0, 0, 0, 0, 0, 0, 0, 0],
/// ];
/// let mut buffer = [77; 3];
/// assert_eq!(answers::batch(&SMALL_SHOP, at, queries.as_flattened(), &mut buffer), 0);
/// assert_eq!(buffer, [0, 10, 77]);
///
/// assert_eq!(answers::batch(&SMALL_SHOP, at, &[0; 13], &mut buffer), 28);
/// assert_eq!(answers::batch(&SMALL_SHOP, at, &[0; 14], &mut []), 28);
/// ```
pub fn batch(base: &[u8], at: Context, queries: &[u8], buffer: &mut [u8]) -> u32 {
    library::batch(base, at, queries, buffer)
}

/// Writes the list of conflicts, 3 bytes each, into the buffer's first bytes.
/// The answer is 0 and their number, 18 and the number that would be written,
/// or the first of refusals 1 to 9 that applies and 0. No refusal writes.
///
/// ```
/// use release::answers::{self, Answer};
/// use release::example::SMALL_SHOP;
///
/// let none = Answer { refusal: 0, count: 0 };
/// assert_eq!(answers::conflicts(&SMALL_SHOP, &mut []), none);
///
/// // The manager's policy made a second one of the buyer.
/// let mut shop = SMALL_SHOP;
/// shop[70] = 1;
/// let too_short = Answer { refusal: 18, count: 1 };
/// assert_eq!(answers::conflicts(&shop, &mut []), too_short);
/// ```
pub fn conflicts(base: &[u8], out: &mut [u8]) -> Answer {
    Answer::from_number(library::conflicts(base, out))
}

/// How far a new weight of one policy can shift a group's sum of weights, by any
/// resolution list and without one: 0 and the bound, or the first of refusals 1
/// to 9, 12 to 15 and 21 that applies and 0.
///
/// ```
/// use release::answers::{self, Answer};
/// use release::example::SMALL_SHOP;
///
/// let done = Answer { refusal: 0, count: 8 };
/// assert_eq!(answers::bound(&SMALL_SHOP, 2, 5, &[0, 0, 2, 2]), done);
///
/// let refused = Answer { refusal: 21, count: 0 };
/// assert_eq!(answers::bound(&SMALL_SHOP, 256, 5, &[0, 0, 2, 2]), refused);
/// ```
pub fn bound(base: &[u8], policy: u32, weight: u32, group: &[u8]) -> Answer {
    Answer::from_number(library::bound(base, policy, weight, group))
}

/// The check of one user's parameter where there are so many roles: 0, or 5 if it
/// is no product of different codes of roles below that number. Both carry how
/// many codes were tried: 0 for parameter 1, the number of roles of a parameter
/// that gets 5, else the highest role's number plus one. More than 8 roles are
/// read as 8. No base is consulted.
///
/// ```
/// use release::answers::{self, Answer};
///
/// let passed = Answer { refusal: 0, count: 2 };
/// assert_eq!(answers::parameter(15, 3), passed);
///
/// let refused = Answer { refusal: 5, count: 3 };
/// assert_eq!(answers::parameter(11, 3), refused);
/// ```
pub fn parameter(parameter: u32, roles: u32) -> Answer {
    Answer::from_number(library::parameter(parameter, roles))
}

/// Opens a sheet for a permission: 0, or the first of refusals 1 to 10 that
/// applies. All its bytes are written, whatever they held: the unsigned sheet
/// for the permission or, if refused, for permission 255. No other refused call
/// writes.
///
/// ```
/// use release::answers;
/// use release::example::SMALL_SHOP;
///
/// let mut sheet = [7; 14];
/// assert_eq!(answers::sheet_open(&SMALL_SHOP, 0, &mut sheet), 0);
/// assert_eq!(sheet, [0; 14]);
///
/// assert_eq!(answers::sheet_open(&SMALL_SHOP, 256, &mut sheet), 10);
/// assert_eq!(sheet, [255, 0, 0, 0, 0, 0, 0, 0, 0, 0, 0, 0, 0, 0]);
/// ```
pub fn sheet_open(base: &[u8], permission: u32, sheet: &mut [u8; SHEET_BYTES]) -> u32 {
    library::sheet_open(base, permission, sheet)
}

/// Takes a signature on a sheet: 0, or the first of refusals 1 to 9, 13, 14, 15
/// and 20 that applies. 13 to 15 are for the new entry alone; it gets 14 if its
/// user is on the sheet, in whatever role. No date is looked at. The entry is
/// written behind those that the sheet holds and counted; no refusal writes.
///
/// ```
/// use release::answers;
/// use release::example::SMALL_SHOP;
///
/// let mut sheet = [0; 14];
/// assert_eq!(answers::sheet_sign(&SMALL_SHOP, 2, 2, &mut sheet), 0);
/// assert_eq!(sheet, [0, 1, 2, 2, 0, 0, 0, 0, 0, 0, 0, 0, 0, 0]);
///
/// assert_eq!(answers::sheet_sign(&SMALL_SHOP, 256, 0, &mut sheet), 13);
/// assert_eq!(answers::sheet_sign(&SMALL_SHOP, 2, 2, &mut sheet), 14);
/// assert_eq!(answers::sheet_sign(&SMALL_SHOP, 3, 0, &mut sheet), 15);
/// assert_eq!(sheet, [0, 1, 2, 2, 0, 0, 0, 0, 0, 0, 0, 0, 0, 0]);
/// ```
pub fn sheet_sign(base: &[u8], user: u32, role: u32, sheet: &mut [u8; SHEET_BYTES]) -> u32 {
    library::sheet_sign(base, user, role, sheet)
}

/// Takes a user's signature back: 0, or 23 if the user has no entry on the
/// sheet. No base is consulted. The entries that stay keep their order, their
/// number is counted anew, and every byte behind them is 0. Where a sheet that
/// no call made names the user more than once, all those entries go. A refusal
/// writes nothing.
///
/// ```
/// use release::answers;
///
/// let mut sheet = [0, 3, 0, 0, 2, 2, 1, 1, 0, 0, 0, 0, 0, 0];
/// assert_eq!(answers::sheet_withdraw(2, &mut sheet), 0);
/// assert_eq!(sheet, [0, 2, 0, 0, 1, 1, 0, 0, 0, 0, 0, 0, 0, 0]);
///
/// assert_eq!(answers::sheet_withdraw(2, &mut sheet), 23);
/// assert_eq!(answers::sheet_withdraw(256, &mut sheet), 23);
/// assert_eq!(sheet, [0, 2, 0, 0, 1, 1, 0, 0, 0, 0, 0, 0, 0, 0]);
/// ```
pub fn sheet_withdraw(user: u32, sheet: &mut [u8; SHEET_BYTES]) -> u32 {
    library::sheet_withdraw(user, sheet)
}

/// Asks a sheet: the answer of [`decide`] for its permission and the group of
/// the entries that it holds, in their order.
///
/// ```
/// use release::example::SMALL_SHOP;
/// use release::{answers, Context};
///
/// let at = Context::new(600, 0, 0, 900);
/// let signed = [0, 2, 0, 0, 2, 2, 0, 0, 0, 0, 0, 0, 0, 0];
/// assert_eq!(answers::sheet_ask(&SMALL_SHOP, at, &signed), 0);
///
/// let unsigned = [0; 14];
/// assert_eq!(answers::sheet_ask(&SMALL_SHOP, at, &unsigned), 12);
/// ```
pub fn sheet_ask(base: &[u8], at: Context, sheet: &[u8; SHEET_BYTES]) -> u32 {
    library::sheet_ask(base, at, sheet)
}

#[cfg(test)]
mod tests {
    use super::*;

    #[test]
    fn an_answer_is_a_refusal_and_a_count() {
        let answer = |refusal, count| Answer { refusal, count };
        assert_eq!(Answer::from_number(0), answer(0, 0));
        assert_eq!(Answer::from_number(9), answer(9, 0));
        assert_eq!(Answer::from_number(18 + 256 * 2688), answer(18, 2688));
    }
}
