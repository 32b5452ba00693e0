//! Sheets that collect signatures.

use crate::answers;
use crate::context::Context;
use crate::decision::{first_entries, Entry};
use crate::refusal::{result_of, Refusal};

/// Bytes of a sheet: the permission, the number of entries and six entries of
/// 2 bytes.
pub const SHEET_BYTES: usize = 14;

/// A sheet that collects signatures for a permission, one by one. It holds
/// each accepted one not withdrawn since, six at most, in order of acceptance.
///
/// Each call but a withdrawal takes a base, and the sheet remembers none: a
/// signature is held against the base at signing and, with the others, against
/// the base at asking, and there against the date. A sheet can be kept as its
/// [bytes](Sheet::to_bytes).
///
/// ```
/// use release::example::SMALL_SHOP;
/// use release::{Context, Entry, Refusal, Sheet};
///
/// let by_day = Context::new(600, 0, 0, 900);
/// let mut sheet = Sheet::open(&SMALL_SHOP, 0)?;
///
/// sheet.sign(&SMALL_SHOP, Entry::new(0, 0))?;
/// assert_eq!(sheet.ask(&SMALL_SHOP, by_day), Err(Refusal::Condition));
///
/// sheet.sign(&SMALL_SHOP, Entry::new(2, 2))?;
/// assert_eq!(sheet.ask(&SMALL_SHOP, by_day), Ok(()));
/// # Ok::<(), Refusal>(())
/// ```
#[derive(Clone, Debug, PartialEq, Eq, Hash)]
pub struct Sheet {
    bytes: [u8; SHEET_BYTES],
}

impl Sheet {
    /// An unsigned sheet for a permission, or the first of refusals 1 to 10
    /// that applies. The number isn't cut: permission 256 gets
    /// [`Refusal::NoPermission`].
    ///
    /// The sheet that a refused opening gives, the unsigned one for permission
    /// 255, comes from [`answers::sheet_open`].
    ///
    /// ```
    /// use release::example::SMALL_SHOP;
    /// use release::{Refusal, Sheet};
    ///
    /// let sheet = Sheet::open(&SMALL_SHOP, 0)?;
    /// assert_eq!(sheet.entries().count(), 0);
    /// assert_eq!(Sheet::open(&SMALL_SHOP, 1), Err(Refusal::NoPermission));
    /// # Ok::<(), Refusal>(())
    /// ```
    pub fn open(base: &[u8], permission: u32) -> Result<Sheet, Refusal> {
        let mut bytes = [0; SHEET_BYTES];
        result_of(answers::sheet_open(base, permission, &mut bytes))?;
        Ok(Sheet { bytes })
    }

    /// Takes a signature, or gives the first of refusals 1 to 9, 13, 14, 15 and
    /// 20 that applies; then the sheet is as it was. 13 to 15 are for the new
    /// entry alone: [`Refusal::UserTwice`] if its user is on the sheet, in
    /// whatever role. A full sheet gets them before [`Refusal::SheetFull`].
    ///
    /// Signing knows no date: a signature from out of its user's days is taken,
    /// and asking gives [`Refusal::OutOfDate`].
    ///
    /// ```
    /// use release::example::SMALL_SHOP;
    /// use release::{Entry, Refusal, Sheet};
    ///
    /// let mut sheet = Sheet::open(&SMALL_SHOP, 0)?;
    /// assert_eq!(sheet.sign(&SMALL_SHOP, Entry::new(0, 0)), Ok(()));
    /// let again = sheet.sign(&SMALL_SHOP, Entry::new(0, 0));
    /// assert_eq!(again, Err(Refusal::UserTwice));
    /// let clerk_as_buyer = sheet.sign(&SMALL_SHOP, Entry::new(2, 1));
    /// assert_eq!(clerk_as_buyer, Err(Refusal::Membership));
    /// let buyer_as_clerk = sheet.sign(&SMALL_SHOP, Entry::new(1, 2));
    /// assert_eq!(buyer_as_clerk, Ok(()));
    /// assert!(sheet.entries().eq([Entry::new(0, 0), Entry::new(1, 2)]));
    /// # Ok::<(), Refusal>(())
    /// ```
    pub fn sign(&mut self, base: &[u8], entry: Entry) -> Result<(), Refusal> {
        self.sign_numbers(base, entry.user.into(), entry.role.into())
    }

    /// The same for a user and a role of any numbers, which aren't cut: those
    /// above 255 get [`Refusal::NoUserOrRole`] too.
    ///
    /// ```
    /// use release::example::SMALL_SHOP;
    /// use release::{Refusal, Sheet};
    ///
    /// let mut sheet = Sheet::open(&SMALL_SHOP, 0)?;
    /// let refused = sheet.sign_numbers(&SMALL_SHOP, 256, 0);
    /// assert_eq!(refused, Err(Refusal::NoUserOrRole));
    /// # Ok::<(), Refusal>(())
    /// ```
    pub fn sign_numbers(&mut self, base: &[u8], user: u32, role: u32) -> Result<(), Refusal> {
        result_of(answers::sheet_sign(base, user, role, &mut self.bytes))
    }

    /// Takes a user's signature back, or gives [`Refusal::NoSignature`] if the
    /// user has no entry on the sheet; then the sheet is as it was. No base is
    /// consulted. The entries that stay keep their order. The user may sign
    /// again and then stands last; a signing taken back at once leaves the sheet
    /// as it was before it.
    ///
    /// ```
    /// use release::example::SMALL_SHOP;
    /// use release::{Entry, Refusal, Sheet};
    ///
    /// let mut sheet = Sheet::open(&SMALL_SHOP, 0)?;
    /// for (user, role) in [(0, 0), (2, 2), (1, 1)] {
    ///     sheet.sign(&SMALL_SHOP, Entry::new(user, role))?;
    /// }
    /// assert_eq!(sheet.withdraw(0), Ok(()));
    /// assert!(sheet.entries().eq([Entry::new(2, 2), Entry::new(1, 1)]));
    /// assert_eq!(sheet.withdraw(0), Err(Refusal::NoSignature));
    ///
    /// sheet.sign(&SMALL_SHOP, Entry::new(0, 1))?;
    /// assert!(sheet.entries().map(|entry| entry.user).eq([2, 1, 0]));
    /// # Ok::<(), Refusal>(())
    /// ```
    pub fn withdraw(&mut self, user: u8) -> Result<(), Refusal> {
        self.withdraw_number(user.into())
    }

    /// The same for a user of any number, which isn't cut: one above 255 gets
    /// [`Refusal::NoSignature`].
    ///
    /// ```
    /// use release::example::SMALL_SHOP;
    /// use release::{Entry, Refusal, Sheet};
    ///
    /// let mut sheet = Sheet::open(&SMALL_SHOP, 0)?;
    /// sheet.sign(&SMALL_SHOP, Entry::new(0, 0))?;
    /// assert_eq!(sheet.withdraw_number(256), Err(Refusal::NoSignature));
    /// assert_eq!(sheet.withdraw_number(0), Ok(()));
    /// # Ok::<(), Refusal>(())
    /// ```
    pub fn withdraw_number(&mut self, user: u32) -> Result<(), Refusal> {
        result_of(answers::sheet_withdraw(user, &mut self.bytes))
    }

    /// Whether those whose signatures stand may release the permission: what
    /// [`decide`](crate::decide) says of it and of the entries that the sheet
    /// holds. Unsigned, it gets [`Refusal::GroupLength`], after 1 to 11.
    ///
    /// ```
    /// use release::example::SMALL_SHOP;
    /// use release::{Context, Refusal, Sheet};
    ///
    /// let sheet = Sheet::open(&SMALL_SHOP, 0)?;
    /// let asked = sheet.ask(&SMALL_SHOP, Context::new(600, 0, 0, 900));
    /// assert_eq!(asked, Err(Refusal::GroupLength));
    /// # Ok::<(), Refusal>(())
    /// ```
    pub fn ask(&self, base: &[u8], context: Context) -> Result<(), Refusal> {
        result_of(answers::sheet_ask(base, context, &self.bytes))
    }

    /// The permission that the sheet was opened for.
    ///
    /// ```
    /// use release::example::SMALL_SHOP;
    /// use release::Sheet;
    ///
    /// assert_eq!(Sheet::open(&SMALL_SHOP, 0)?.permission(), 0);
    /// # Ok::<(), release::Refusal>(())
    /// ```
    pub fn permission(&self) -> u8 {
        self.bytes[0]
    }

    /// The entries that the sheet holds, in order of acceptance. Of a sheet
    /// [from bytes](Sheet::from_bytes) that claims over six, these are the
    /// first six.
    ///
    /// ```
    /// use release::example::SMALL_SHOP;
    /// use release::{Entry, Sheet};
    ///
    /// let mut sheet = Sheet::open(&SMALL_SHOP, 0)?;
    /// sheet.sign(&SMALL_SHOP, Entry::new(3, 2))?;
    /// sheet.sign(&SMALL_SHOP, Entry::new(1, 1))?;
    /// assert!(sheet.entries().eq([Entry::new(3, 2), Entry::new(1, 1)]));
    /// # Ok::<(), release::Refusal>(())
    /// ```
    pub fn entries(&self) -> impl Iterator<Item = Entry> + '_ {
        first_entries(&self.bytes[2..], self.bytes[1].into())
    }

    /// The sheet's bytes: the permission, the number of entries and six entries
    /// of 2 bytes.
    ///
    /// ```
    /// use release::example::SMALL_SHOP;
    /// use release::{Entry, Sheet};
    ///
    /// let mut sheet = Sheet::open(&SMALL_SHOP, 0)?;
    /// sheet.sign(&SMALL_SHOP, Entry::new(2, 2))?;
    /// assert_eq!(sheet.to_bytes(), [0, 1, 2, 2, 0, 0, 0, 0, 0, 0, 0, 0, 0, 0]);
    /// # Ok::<(), release::Refusal>(())
    /// ```
    pub fn to_bytes(&self) -> [u8; SHEET_BYTES] {
        self.bytes
    }

    /// The sheet that was kept as these bytes. They may be any: nothing is
    /// checked here.
    ///
    /// ```
    /// use release::example::SMALL_SHOP;
    /// use release::{Entry, Sheet};
    ///
    /// let mut sheet = Sheet::open(&SMALL_SHOP, 0)?;
    /// sheet.sign(&SMALL_SHOP, Entry::new(2, 2))?;
    /// let kept = sheet.to_bytes();
    /// assert_eq!(Sheet::from_bytes(kept), sheet);
    /// # Ok::<(), release::Refusal>(())
    /// ```
    pub fn from_bytes(bytes: [u8; SHEET_BYTES]) -> Sheet {
        Sheet { bytes }
    }
}

#[cfg(test)]
mod tests {
    use super::*;
    use crate::decide;
    use crate::example::SMALL_SHOP;

    const BY_DAY: Context = Context {
        minute: 600,
        day: 0,
        zone: 0,
        date: 900,
    };

    /// The small shop with four clerks more: users 4 to 7.
    fn eight_users() -> Vec<u8> {
        let mut shop = SMALL_SHOP.to_vec();
        let (tables, trailer) = shop.split_at_mut(94);
        let clerks = tables[20..36].repeat(2);
        trailer[6] = 8;
        for table in 2..7 {
            trailer[4 * table] += 32;
        }
        shop.splice(36..36, clerks);
        shop
    }

    /// A sheet that clerks 2 to 7 have signed.
    fn full_sheet(base: &[u8]) -> Sheet {
        let mut sheet = Sheet::open(base, 0).expect("it is opened");
        for user in 2..8 {
            let signed = sheet.sign(base, Entry::new(user, 2));
            assert_eq!(signed, Ok(()));
        }
        sheet
    }

    /// The sheet is asked with what it holds and its permission.
    fn expect_decision(base: &[u8], sheet: &Sheet) {
        let group: Vec<Entry> = sheet.entries().collect();
        let decided = decide(base, sheet.permission().into(), BY_DAY, &group);
        assert_eq!(sheet.ask(base, BY_DAY), decided);
    }

    #[test]
    fn an_opened_sheet_is_unsigned() {
        let sheet = Sheet::open(&SMALL_SHOP, 0).expect("it is opened");
        assert_eq!(sheet.to_bytes(), [0; SHEET_BYTES]);
        expect_decision(&SMALL_SHOP, &sheet);
    }

    #[test]
    fn an_opening_may_be_refused() {
        for permission in [1, 16, 255, 256, 65_536, u32::MAX] {
            let refused = Sheet::open(&SMALL_SHOP, permission);
            assert_eq!(refused, Err(Refusal::NoPermission));
        }
        let refused = Sheet::open(&SMALL_SHOP[1..], 256);
        assert_eq!(refused, Err(Refusal::Trailer));
    }

    #[test]
    fn a_sheet_holds_those_accepted_in_their_order() {
        let mut sheet = Sheet::open(&SMALL_SHOP, 0).expect("it is opened");
        let signings = [
            (3, 2, Ok(())),
            (4, 2, Err(Refusal::NoUserOrRole)),
            (1, 3, Err(Refusal::NoUserOrRole)),
            (3, 1, Err(Refusal::UserTwice)),
            (1, 0, Err(Refusal::Membership)),
            (0, 1, Ok(())),
            (0, 0, Err(Refusal::UserTwice)),
            (1, 1, Ok(())),
        ];
        for (user, role, answer) in signings {
            let before = sheet.clone();
            assert_eq!(sheet.sign(&SMALL_SHOP, Entry::new(user, role)), answer);
            assert_eq!(sheet == before, answer.is_err());
            expect_decision(&SMALL_SHOP, &sheet);
        }
        let bytes = [0, 3, 3, 2, 0, 1, 1, 1, 0, 0, 0, 0, 0, 0];
        assert_eq!(sheet.to_bytes(), bytes);
        assert!(sheet
            .entries()
            .map(Entry::bytes)
            .eq([[3, 2], [0, 1], [1, 1]]));
    }

    /// The manager signs as buyer and as clerk, the buyer as clerk, and nobody
    /// as somebody above.
    #[test]
    fn users_sign_in_their_roles_and_below() {
        for user in 0..4 {
            for role in 0..3 {
                let mut sheet = Sheet::open(&SMALL_SHOP, 0).expect("it is opened");
                let allowed = user.min(2) <= role;
                let answer = if allowed {
                    Ok(())
                } else {
                    Err(Refusal::Membership)
                };
                assert_eq!(sheet.sign(&SMALL_SHOP, Entry::new(user, role)), answer);
                expect_decision(&SMALL_SHOP, &sheet);
            }
        }
    }

    #[test]
    fn a_sheet_holds_those_not_withdrawn_since() {
        let base = eight_users();
        let mut sheet = full_sheet(&base);
        for user in [3, 7, 2] {
            assert_eq!(sheet.withdraw(user), Ok(()));
            assert_eq!(sheet.withdraw(user), Err(Refusal::NoSignature));
            expect_decision(&base, &sheet);
        }
        assert_eq!(sheet.to_bytes(), [0, 3, 4, 2, 5, 2, 6, 2, 0, 0, 0, 0, 0, 0]);
        assert_eq!(sheet.sign(&base, Entry::new(3, 2)), Ok(()));
        let users = sheet.entries().map(|entry| entry.user);
        assert!(users.eq([4, 5, 6, 3]));
        for user in [4, 5, 6, 3] {
            assert_eq!(sheet.withdraw(user), Ok(()));
        }
        assert_eq!(sheet, Sheet::open(&base, 0).expect("it is opened"));
    }

    #[test]
    fn a_signing_taken_back_at_once_leaves_the_sheet_as_it_was() {
        let base = eight_users();
        let mut sheet = Sheet::open(&base, 0).expect("it is opened");
        for user in 2..8 {
            let before = sheet.clone();
            assert_eq!(sheet.sign(&base, Entry::new(user, 2)), Ok(()));
            let signed = sheet.clone();
            assert_eq!(sheet.withdraw(user), Ok(()));
            assert_eq!(sheet, before);
            sheet = signed;
        }
    }

    #[test]
    fn a_user_without_an_entry_changes_nothing() {
        let full = full_sheet(&eight_users());
        let mut sheet = full.clone();
        for user in [0, 1, 8, 255, 256, 258, 65_538, u32::MAX] {
            let refused = sheet.withdraw_number(user);
            assert_eq!(refused, Err(Refusal::NoSignature));
            assert_eq!(sheet, full);
        }
    }

    /// User 2, a clerk, has days 7 to 9.
    #[test]
    fn signing_knows_no_date_and_asking_does() {
        let mut shop = SMALL_SHOP;
        (shop[24], shop[26], shop[27]) = (7, 9, 0);
        let mut sheet = Sheet::open(&shop, 0).expect("it is opened");
        for (user, role) in [(0, 0), (2, 2)] {
            assert_eq!(sheet.sign(&shop, Entry::new(user, role)), Ok(()));
        }
        let asked = |date| sheet.ask(&shop, Context { date, ..BY_DAY });
        for date in [7, 8, 9] {
            assert_eq!(asked(date), Ok(()));
        }
        for date in [0, 6, 10, 65_535] {
            assert_eq!(asked(date), Err(Refusal::OutOfDate));
        }
        assert_eq!(asked(65_536), Err(Refusal::Context));
        assert_eq!(sheet.withdraw(2), Ok(()));
        assert_eq!(sheet.ask(&shop, BY_DAY), Err(Refusal::Condition));
    }

    #[test]
    fn a_refused_base_takes_no_signature() {
        let mut sheet = Sheet::open(&SMALL_SHOP, 0).expect("it is opened");
        let refused = sheet.sign(&SMALL_SHOP[1..], Entry::new(9, 9));
        assert_eq!(refused, Err(Refusal::Trailer));
        assert_eq!(sheet.ask(&SMALL_SHOP[1..], BY_DAY), Err(Refusal::Trailer));
        assert_eq!(sheet.to_bytes(), [0; SHEET_BYTES]);
    }

    #[test]
    fn numbers_are_not_cut() {
        let mut sheet = Sheet::open(&SMALL_SHOP, 0).expect("it is opened");
        for (user, role) in [(256, 0), (0, 256), (65_536, 0), (0, u32::MAX)] {
            let refused = sheet.sign_numbers(&SMALL_SHOP, user, role);
            assert_eq!(refused, Err(Refusal::NoUserOrRole));
        }
        assert_eq!(sheet.sign_numbers(&SMALL_SHOP, 0, 0), Ok(()));
    }

    #[test]
    fn a_full_sheet_takes_no_more() {
        let base = eight_users();
        let full = full_sheet(&base);
        expect_decision(&base, &full);
        let mut sheet = full.clone();
        let signings = [
            (8, 2, Refusal::NoUserOrRole),
            (7, 0, Refusal::UserTwice),
            (1, 0, Refusal::Membership),
            (1, 1, Refusal::SheetFull),
            (1, 2, Refusal::SheetFull),
        ];
        for (user, role, refusal) in signings {
            assert_eq!(sheet.sign(&base, Entry::new(user, role)), Err(refusal));
            assert_eq!(sheet, full);
        }
    }

    #[test]
    fn a_sheet_that_claims_over_six_has_six() {
        let base = eight_users();
        let full = full_sheet(&base);
        for claimed in [7, 8, 128, 255] {
            let mut bytes = full.to_bytes();
            bytes[1] = claimed;
            let mut sheet = Sheet::from_bytes(bytes);
            assert!(sheet.entries().eq(full.entries()));
            assert_eq!(sheet.ask(&base, BY_DAY), full.ask(&base, BY_DAY));
            let refused = sheet.sign(&base, Entry::new(1, 1));
            assert_eq!(refused, Err(Refusal::SheetFull));
            assert_eq!(sheet.to_bytes(), bytes);
            assert_eq!(sheet.withdraw(7), Ok(()));
            assert_eq!(sheet.to_bytes(), [0, 5, 2, 2, 3, 2, 4, 2, 5, 2, 6, 2, 0, 0]);
        }
    }

    #[test]
    fn the_sheet_of_a_refused_opening() {
        let mut bytes = [7; SHEET_BYTES];
        assert_eq!(answers::sheet_open(&SMALL_SHOP, 1, &mut bytes), 10);
        let mut sheet = Sheet::from_bytes(bytes);
        assert_eq!((sheet.permission(), sheet.entries().count()), (255, 0));
        assert_eq!(sheet.sign(&SMALL_SHOP, Entry::new(0, 0)), Ok(()));
        let asked = sheet.ask(&SMALL_SHOP, BY_DAY);
        assert_eq!(asked, Err(Refusal::NoPermission));
    }

    /// Signing leaves the bytes behind the entries held, and reads none of them.
    #[test]
    fn other_bytes_are_as_they_were() {
        let mut sheet = Sheet::from_bytes([9, 1, 2, 2, 0, 0, 7, 7, 7, 7, 7, 7, 7, 7]);
        assert_eq!(sheet.sign(&SMALL_SHOP, Entry::new(0, 0)), Ok(()));
        assert_eq!(sheet.sign(&SMALL_SHOP, Entry::new(3, 2)), Ok(()));
        let bytes = [9, 3, 2, 2, 0, 0, 3, 2, 7, 7, 7, 7, 7, 7];
        assert_eq!(sheet.to_bytes(), bytes);
    }

    /// Sheets that no call made: user 2 stands twice, and 7 is no entry.
    #[test]
    fn a_withdrawal_clears_what_lies_behind() {
        let mut sheet = Sheet::from_bytes([9, 4, 2, 2, 0, 0, 2, 1, 3, 2, 7, 7, 7, 7]);
        assert_eq!(sheet.withdraw(7), Err(Refusal::NoSignature));
        assert_eq!(sheet.withdraw(2), Ok(()));
        assert_eq!(sheet.to_bytes(), [9, 2, 0, 0, 3, 2, 0, 0, 0, 0, 0, 0, 0, 0]);
        assert_eq!(sheet.withdraw(2), Err(Refusal::NoSignature));
    }
}
