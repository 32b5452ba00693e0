//! The sheet that collects signatures: a permission, the number of entries and
//! six entries.

use crate::acting::Acting;
use crate::base::Base;
use crate::context::Context;
use crate::decision::decide_as;
use crate::group::{entries, pairs, Entry, MOST_ENTRIES};
use crate::reading::Reading;
use crate::refusal::{number, refuse_if, Refusal};

/// A sheet's bytes.
pub type Sheet = [u8; 14];

/// The permission of a sheet whose opening was refused.
const REFUSED: u8 = 255;

/// Opens a sheet: whatever it held, it becomes the unsigned sheet for this
/// permission, or for 255 if one of refusals 1 to 10 applies.
pub fn sheet_open(base: &[u8], permission: u32, sheet: &mut Sheet) -> u8 {
    sheet_open_as(Reading::Paper, base, permission, sheet)
}

/// The opening by this reading.
pub fn sheet_open_as(reading: Reading, base: &[u8], permission: u32, sheet: &mut Sheet) -> u8 {
    let opened = Base::read_as(reading, base).and_then(|base| {
        let permission = base.permission(permission);
        permission.ok_or(Refusal::NoPermission)
    });
    *sheet = [0; 14];
    sheet[0] = match reading {
        Reading::PermissionKept => permission as u8,
        _ => opened.unwrap_or(REFUSED),
    };
    number(opened)
}

/// Signs a sheet: the new entry stands behind those held. No byte changes if
/// one of refusals 1 to 9, 13 to 15 and 20 applies.
pub fn sheet_sign(base: &[u8], user: u32, role: u32, sheet: &mut Sheet) -> u8 {
    sheet_sign_as(Reading::Paper, base, user, role, sheet)
}

/// The signing by this reading.
pub fn sheet_sign_as(reading: Reading, base: &[u8], user: u32, role: u32, sheet: &mut Sheet) -> u8 {
    let base = Base::read_as(reading, base);
    let entry = base.and_then(|base| new_entry(reading, &base, user, role, sheet));
    if let Ok(entry) = entry {
        let count = held(reading, sheet).len() / 2;
        sheet[1] = count as u8 + 1;
        sheet[2 + 2 * count..][..2].copy_from_slice(&entry.bytes());
    }
    number(entry)
}

/// Takes a user's signature back: the entries held without the user's stay, in
/// their order, and each byte behind them is 0. No byte changes if refusal 23
/// applies: the user has no entry on the sheet.
pub fn sheet_withdraw(user: u32, sheet: &mut Sheet) -> u8 {
    sheet_withdraw_as(Reading::Paper, user, sheet)
}

/// The withdrawal by this reading.
pub fn sheet_withdraw_as(reading: Reading, user: u32, sheet: &mut Sheet) -> u8 {
    let staying = staying(reading, user, sheet);
    if let Ok(entries) = &staying {
        let before = *sheet;
        *sheet = sheet_holding(before[0], entries);
        if reading == Reading::BehindUncleared {
            let behind = 2 + 2 * entries.len();
            sheet[behind..].copy_from_slice(&before[behind..]);
        }
    }
    number(staying)
}

/// The decision for a sheet's permission and the entries that it holds.
pub fn sheet_ask(base: &[u8], at: Context, sheet: &Sheet) -> u8 {
    sheet_ask_as(Reading::Paper, base, at, sheet)
}

/// The answer by this reading.
pub fn sheet_ask_as(reading: Reading, base: &[u8], at: Context, sheet: &Sheet) -> u8 {
    let group = held(reading, sheet);
    decide_as(reading, base, sheet[0].into(), at, None, group)
}

/// The sheet for a permission that holds exactly these entries, six at most.
pub fn sheet_holding(permission: u8, entries: &[Entry]) -> Sheet {
    let mut sheet = [0; 14];
    let bytes: Vec<u8> = entries.iter().flat_map(|entry| entry.bytes()).collect();
    (sheet[0], sheet[1]) = (permission, entries.len() as u8);
    sheet[2..][..bytes.len()].copy_from_slice(&bytes);
    sheet
}

/// The bytes of the entries that a sheet holds: as many as it claims, and of
/// one that claims over six its first six.
fn held(reading: Reading, sheet: &Sheet) -> &[u8] {
    let claimed = usize::from(sheet[1]);
    let count = match reading {
        Reading::OverSixAsNone if claimed > MOST_ENTRIES => 0,
        _ => claimed.min(MOST_ENTRIES),
    };
    &sheet[2..][..2 * count]
}

/// The entry to write, or the first of refusals 13 to 15 and 20 that applies
/// to it.
fn new_entry(
    reading: Reading,
    base: &Base,
    user: u32,
    role: u32,
    sheet: &Sheet,
) -> Result<Entry, Refusal> {
    let held = entries(held(reading, sheet)).unwrap_or_default();
    let full = held.len() == MOST_ENTRIES;
    match reading {
        Reading::FullFirst => refuse_if(full, Refusal::SheetFull)?,
        Reading::PermissionAtSigning => {
            let permission = base.permission(sheet[0].into());
            refuse_if(permission.is_none(), Refusal::NoPermission)?;
        }
        _ => (),
    }
    let entry = base.entry(user, role).ok_or(Refusal::NoUserOrRole)?;
    let signed = held.iter().any(|other| match reading {
        Reading::AnotherRole => *other == entry,
        _ => other.user == entry.user,
    });
    refuse_if(signed, Refusal::UserTwice)?;
    let may_act = Acting::by(reading, base).may_act(entry.user, entry.role);
    refuse_if(!may_act, Refusal::Membership)?;
    let out_of_date = reading == Reading::DaysAtSigning && !base.comes_on(reading, entry.user, 0);
    refuse_if(out_of_date, Refusal::OutOfDate)?;
    refuse_if(full, Refusal::SheetFull)?;
    Ok(entry)
}

/// The entries held that a user's withdrawal leaves, or refusal 23.
fn staying(reading: Reading, user: u32, sheet: &Sheet) -> Result<Vec<Entry>, Refusal> {
    let mut entries: Vec<Entry> = pairs(held(reading, sheet)).collect();
    let goes = |entry: &Entry| match reading {
        Reading::RoleWithdrawn => u32::from(entry.role) == user,
        _ => u32::from(entry.user) == user,
    };
    let first = entries.iter().position(goes).ok_or(Refusal::NoSignature)?;
    match reading {
        Reading::LastIntoGap => {
            entries.swap_remove(first);
        }
        Reading::ClearedInPlace => entries[first] = Entry { user: 0, role: 0 },
        Reading::LaterDropped => entries.truncate(first),
        Reading::FirstEntryAlone => {
            entries.remove(first);
        }
        _ => entries.retain(|entry| !goes(entry)),
    }
    Ok(entries)
}

impl Base {
    /// The entry of this user and role, if both are there.
    fn entry(&self, user: u32, role: u32) -> Option<Entry> {
        let user = u8::try_from(user).ok()?;
        let role = u8::try_from(role).ok()?;
        let there = usize::from(user) < self.users.len() && role < self.roles;
        there.then_some(Entry { user, role })
    }
}

#[cfg(test)]
mod tests {
    use super::*;
    use crate::decision::decide;
    use crate::samples::{at_minute, eight_users, Draws, SMALL_SHOP};

    const NOISE: Sheet = [9, 200, 7, 7, 6, 6, 5, 5, 4, 4, 3, 3, 2, 2];

    /// A sheet for permission 0 with this claim, and 50 to 61 as its entries.
    fn claiming(count: u8) -> Sheet {
        [0, count, 50, 51, 52, 53, 54, 55, 56, 57, 58, 59, 60, 61]
    }

    /// The answer, and the sheet afterwards.
    fn opened(base: &[u8], permission: u32) -> (u8, Sheet) {
        let mut sheet = NOISE;
        (sheet_open(base, permission, &mut sheet), sheet)
    }

    fn signed_by(reading: Reading, user: u32, role: u32, mut sheet: Sheet) -> (u8, Sheet) {
        let answer = sheet_sign_as(reading, &SMALL_SHOP, user, role, &mut sheet);
        (answer, sheet)
    }

    /// The small shop's answer to a signing, and the sheet afterwards.
    fn signed(user: u32, role: u32, sheet: Sheet) -> (u8, Sheet) {
        signed_by(Reading::Paper, user, role, sheet)
    }

    /// The answer to a refused signing, which changes no byte.
    fn refused(user: u32, role: u32, sheet: Sheet) -> u8 {
        let (answer, after) = signed(user, role, sheet);
        assert_eq!(after, sheet);
        answer
    }

    #[test]
    fn an_opened_sheet_is_unsigned_whatever_it_held() {
        assert_eq!(opened(&SMALL_SHOP, 0), (0, [0; 14]));
    }

    #[test]
    fn a_refused_opening_gives_an_unsigned_sheet_for_255() {
        let unsigned = [255, 0, 0, 0, 0, 0, 0, 0, 0, 0, 0, 0, 0, 0];
        assert_eq!(opened(&[], 0), (1, unsigned));
        assert_eq!(opened(&SMALL_SHOP[1..], 0), (3, unsigned));
        for permission in [1, 255, 256, 257, 65_536, u32::MAX] {
            assert_eq!(opened(&SMALL_SHOP, permission), (10, unsigned));
        }
    }

    #[test]
    fn an_entry_is_written_behind_those_held() {
        let mut sheet = [0; 14];
        for (user, role) in [(2, 2), (0, 0), (3, 2)] {
            assert_eq!(sheet_sign(&SMALL_SHOP, user, role, &mut sheet), 0);
        }
        assert_eq!(sheet, [0, 3, 2, 2, 0, 0, 3, 2, 0, 0, 0, 0, 0, 0]);
    }

    #[test]
    fn a_signing_changes_the_count_and_two_bytes_alone() {
        for count in 0..6 {
            let mut expected = claiming(count);
            expected[1] = count + 1;
            let place = 2 + 2 * usize::from(count);
            (expected[place], expected[place + 1]) = (1, 1);
            assert_eq!(signed(1, 1, claiming(count)), (0, expected));
        }
    }

    /// With users 50, 52 and so on held, and user 1 in the third entry.
    #[test]
    fn a_full_sheet_gets_13_to_15_before_20() {
        let mut full = claiming(6);
        (full[6], full[7]) = (1, 1);
        for (user, role) in [(4, 2), (50, 0), (256, 1), (257, 1), (1, 3), (2, 256)] {
            assert_eq!(refused(user, role, full), 13);
        }
        assert_eq!(refused(1, 1, full), 14);
        assert_eq!(refused(1, 0, full), 14);
        assert_eq!(refused(2, 1, full), 15);
        assert_eq!(refused(2, 2, full), 20);
    }

    #[test]
    fn a_user_signs_once_in_whatever_role() {
        let mut base = SMALL_SHOP;
        base[4] = 15;
        let mut sheet = [0; 14];
        assert_eq!(sheet_sign(&base, 0, 0, &mut sheet), 0);
        assert_eq!(sheet_sign(&base, 0, 1, &mut sheet), 14);
        assert_eq!(sheet_sign(&base, 0, 0, &mut sheet), 14);
        assert_eq!(sheet, [0, 1, 0, 0, 0, 0, 0, 0, 0, 0, 0, 0, 0, 0]);
    }

    #[test]
    fn a_user_signs_in_roles_held_and_below() {
        for (user, role) in [(0, 0), (0, 1), (0, 2), (1, 1), (1, 2), (2, 2), (3, 2)] {
            let (answer, sheet) = signed(user, role, [0; 14]);
            assert_eq!((answer, &sheet[..2]), (0, &[0, 1][..]));
            assert_eq!(sheet[2..4], [user as u8, role as u8]);
        }
        for (user, role) in [(1, 0), (2, 0), (2, 1), (3, 0), (3, 1)] {
            assert_eq!(refused(user, role, [0; 14]), 15);
        }
    }

    #[test]
    fn a_user_who_signed_as_a_junior_has_signed() {
        let (_, sheet) = signed(0, 2, [0; 14]);
        for role in 0..3 {
            assert_eq!(refused(0, role, sheet), 14);
        }
    }

    /// The buyer signs as clerk; where the manager is over both, the buyer may
    /// not.
    #[test]
    fn asking_looks_at_the_hierarchy_anew() {
        let (_, mut sheet) = signed(1, 2, [0; 14]);
        let mut apart = SMALL_SHOP;
        apart[2] = 0;
        assert_eq!(sheet_ask(&SMALL_SHOP, at_minute(600), &sheet), 17);
        assert_eq!(sheet_ask(&apart, at_minute(600), &sheet), 15);
        assert_eq!(sheet_sign(&apart, 1, 2, &mut sheet), 14);
        assert_eq!(sheet_sign(&apart, 1, 2, &mut [0; 14]), 15);
    }

    /// User 256 is no user, and so isn't user 0, who is on the sheet.
    #[test]
    fn numbers_are_not_cut_to_bytes() {
        let mut sheet = claiming(1);
        (sheet[2], sheet[3]) = (0, 0);
        assert_eq!(refused(0, 0, sheet), 14);
        for number in [256, 65_536, 1 << 24] {
            assert_eq!(refused(number, 0, sheet), 13);
            assert_eq!(refused(1, number + 1, sheet), 13);
        }
    }

    #[test]
    fn a_refused_base_comes_first() {
        let mut sheet = NOISE;
        assert_eq!(sheet_sign(&SMALL_SHOP[1..], 9, 9, &mut sheet), 3);
        assert_eq!(sheet_sign(&[], 9, 9, &mut sheet), 1);
        assert_eq!(sheet, NOISE);
    }

    /// Neither the sheet's permission nor the entries beside the new one.
    #[test]
    fn only_the_new_entry_is_looked_at() {
        let bad = [255, 2, 99, 99, 99, 99, 0, 0, 0, 0, 0, 0, 0, 0];
        assert_eq!(signed(1, 1, bad).0, 0);
    }

    #[test]
    fn entries_beyond_the_claim_are_not_held() {
        let mut sheet = claiming(1);
        (sheet[4], sheet[5]) = (1, 1);
        assert_eq!(signed(1, 1, sheet).0, 0);
        sheet[1] = 2;
        assert_eq!(refused(1, 1, sheet), 14);
    }

    #[test]
    fn a_sheet_that_claims_over_six_holds_its_first_six() {
        for count in [6, 7, 8, 127, 128, 254, 255] {
            let mut sheet = claiming(count);
            (sheet[12], sheet[13]) = (1, 1);
            assert_eq!(refused(1, 1, sheet), 14);
            assert_eq!(refused(2, 2, sheet), 20);
            let answer = sheet_ask(&SMALL_SHOP, at_minute(600), &sheet);
            assert_eq!(answer, 13);
        }
    }

    /// The manager's first day is 1, and a clerk's last day 299.
    #[test]
    fn signing_knows_no_days_and_asking_does() {
        let mut base = SMALL_SHOP;
        base[8] = 1;
        (base[26], base[27]) = (0x2b, 0x01);
        let mut sheet = [0; 14];
        assert_eq!(sheet_sign(&base, 0, 0, &mut sheet), 0);
        assert_eq!(sheet_sign(&base, 2, 2, &mut sheet), 0);
        let on = |date| {
            let at = Context {
                date,
                ..at_minute(600)
            };
            sheet_ask(&base, at, &sheet)
        };
        assert_eq!([0, 1, 299, 300, 65_536].map(on), [24, 0, 0, 24, 11]);
        let wrong = Reading::DaysAtSigning;
        let mut unsigned = [0; 14];
        assert_eq!(sheet_sign_as(wrong, &base, 0, 0, &mut unsigned), 24);
        assert_eq!(unsigned, [0; 14]);
        assert_eq!(sheet_sign_as(wrong, &base, 0, 0, &mut sheet), 14);
        assert_eq!(sheet_sign_as(wrong, &base, 2, 1, &mut unsigned), 15);
        assert_eq!(sheet_sign_as(wrong, &base, 2, 2, &mut unsigned), 0);
    }

    #[test]
    fn an_unsigned_sheet_gets_12_and_one_for_255_gets_10() {
        let ask = |minute, sheet| sheet_ask(&SMALL_SHOP, at_minute(minute), &sheet);
        assert_eq!(ask(600, [0; 14]), 12);
        assert_eq!(ask(1440, [0; 14]), 11);
        let (_, refused) = opened(&SMALL_SHOP, 1);
        assert_eq!(ask(600, refused), 10);
        assert_eq!(ask(1440, refused), 10);
    }

    #[test]
    fn a_sheet_is_granted_when_its_entries_are() {
        let mut sheet = [0; 14];
        let mut answers = Vec::new();
        for (user, role) in [(2, 2), (1, 1), (0, 0)] {
            sheet_sign(&SMALL_SHOP, user, role, &mut sheet);
            answers.push(sheet_ask(&SMALL_SHOP, at_minute(600), &sheet));
        }
        assert_eq!(answers, [17, 17, 0]);
        assert_eq!(sheet_ask(&SMALL_SHOP, at_minute(480), &sheet), 16);
    }

    /// The answer to a withdrawal, and the sheet afterwards.
    fn withdrawn_by(reading: Reading, user: u32, mut sheet: Sheet) -> (u8, Sheet) {
        (sheet_withdraw_as(reading, user, &mut sheet), sheet)
    }

    fn withdrawn(user: u32, mut sheet: Sheet) -> (u8, Sheet) {
        (sheet_withdraw(user, &mut sheet), sheet)
    }

    #[test]
    fn a_sheets_later_bytes_are_0() {
        let entry = |user, role| Entry { user, role };
        let sheet = sheet_holding(7, &[entry(3, 2), entry(0, 0)]);
        assert_eq!(sheet, [7, 2, 3, 2, 0, 0, 0, 0, 0, 0, 0, 0, 0, 0]);
        assert_eq!(sheet_holding(255, &[])[..3], [255, 0, 0]);
    }

    #[test]
    fn the_entries_that_stay_keep_their_order() {
        let after = [
            (50, [0, 5, 52, 53, 54, 55, 56, 57, 58, 59, 60, 61, 0, 0]),
            (52, [0, 5, 50, 51, 54, 55, 56, 57, 58, 59, 60, 61, 0, 0]),
            (54, [0, 5, 50, 51, 52, 53, 56, 57, 58, 59, 60, 61, 0, 0]),
            (58, [0, 5, 50, 51, 52, 53, 54, 55, 56, 57, 60, 61, 0, 0]),
            (60, [0, 5, 50, 51, 52, 53, 54, 55, 56, 57, 58, 59, 0, 0]),
        ];
        for (user, after) in after {
            assert_eq!(withdrawn(user, claiming(6)), (0, after));
        }
    }

    #[test]
    fn the_last_signature_taken_back_leaves_an_unsigned_sheet() {
        let sheet = [9, 1, 4, 2, 0, 0, 0, 0, 0, 0, 0, 0, 0, 0];
        let unsigned = [9, 0, 0, 0, 0, 0, 0, 0, 0, 0, 0, 0, 0, 0];
        assert_eq!(withdrawn(4, sheet), (0, unsigned));
        assert_eq!(withdrawn(4, unsigned), (23, unsigned));
    }

    /// Neither the permission 9, nor the claim 200, nor a role, nor a user who
    /// isn't there.
    #[test]
    fn a_user_without_an_entry_gets_23_and_no_byte_changes() {
        let noise = [9, 200, 7, 1, 6, 1, 5, 1, 4, 1, 3, 1, 2, 1];
        for user in [9, 200, 1, 0, 255, 256, 263, u32::MAX] {
            assert_eq!(withdrawn(user, noise), (23, noise));
        }
    }

    #[test]
    fn withdrawn_users_are_not_cut_to_bytes() {
        let sheet = [0, 2, 0, 0, 255, 0, 0, 0, 0, 0, 0, 0, 0, 0];
        for user in [256, 511, 65_536, 65_791, 1 << 24, 1 << 31, u32::MAX] {
            assert_eq!(withdrawn(user, sheet), (23, sheet));
        }
        assert_eq!(withdrawn(0, sheet).0, 0);
        assert_eq!(withdrawn(255, sheet).0, 0);
    }

    /// Users 54 and so on stand behind the two entries claimed.
    #[test]
    fn bytes_behind_the_entries_are_no_entries_and_are_cleared() {
        for user in [54, 56, 58, 60] {
            assert_eq!(withdrawn(user, claiming(2)), (23, claiming(2)));
        }
        let after = [0, 1, 50, 51, 0, 0, 0, 0, 0, 0, 0, 0, 0, 0];
        assert_eq!(withdrawn(52, claiming(2)), (0, after));
    }

    #[test]
    fn of_a_claim_over_six_five_entries_stay() {
        let after = [0, 5, 50, 51, 52, 53, 54, 55, 58, 59, 60, 61, 0, 0];
        for count in [6, 7, 8, 127, 128, 254, 255] {
            assert_eq!(withdrawn(56, claiming(count)), (0, after));
            assert_eq!(withdrawn(62, claiming(count)), (23, claiming(count)));
        }
    }

    #[test]
    fn all_entries_of_a_user_who_stands_twice_go() {
        for count in [6, 255] {
            let sheet = [3, count, 1, 0, 2, 0, 1, 1, 4, 0, 5, 1, 1, 2];
            let after = [3, 3, 2, 0, 4, 0, 5, 1, 0, 0, 0, 0, 0, 0];
            assert_eq!(withdrawn(1, sheet), (0, after));
            assert_eq!(withdrawn(1, after), (23, after));
        }
        assert_eq!(withdrawn(7, [7; 14]).1[..4], [7, 0, 0, 0]);
    }

    #[test]
    fn a_signing_taken_back_at_once_leaves_the_sheet_as_it_was() {
        let made = [
            [255, 0, 0, 0, 0, 0, 0, 0, 0, 0, 0, 0, 0, 0],
            [0, 1, 2, 2, 0, 0, 0, 0, 0, 0, 0, 0, 0, 0],
            [0, 5, 9, 0, 2, 2, 0, 1, 8, 0, 3, 2, 0, 0],
        ];
        for before in made {
            let (answer, after) = signed(1, 1, before);
            assert_eq!(answer, 0);
            assert_eq!(withdrawn(1, after), (0, before));
        }
    }

    #[test]
    fn who_has_withdrawn_may_sign_again_and_stands_last() {
        let mut sheet = [0, 3, 0, 0, 1, 1, 2, 2, 0, 0, 0, 0, 0, 0];
        assert_eq!(sheet_sign(&SMALL_SHOP, 0, 1, &mut sheet), 14);
        assert_eq!(sheet_withdraw(0, &mut sheet), 0);
        assert_eq!(sheet_sign(&SMALL_SHOP, 0, 1, &mut sheet), 0);
        assert_eq!(sheet, [0, 3, 1, 1, 2, 2, 0, 1, 0, 0, 0, 0, 0, 0]);
    }

    #[test]
    fn a_withdrawal_changes_what_the_sheet_is_answered() {
        let mut sheet = [0, 2, 0, 0, 2, 2, 0, 0, 0, 0, 0, 0, 0, 0];
        let ask = |sheet: &Sheet| sheet_ask(&SMALL_SHOP, at_minute(600), sheet);
        assert_eq!(ask(&sheet), 0);
        assert_eq!(sheet_withdraw(0, &mut sheet), 0);
        assert_eq!(ask(&sheet), 17);
        assert_eq!(sheet_withdraw(2, &mut sheet), 0);
        assert_eq!(ask(&sheet), 12);
    }

    /// A sheet of small numbers and any claim.
    fn any_sheet(draws: &mut Draws) -> Sheet {
        let mut sheet = [0; 14].map(|_: u8| draws.byte(0, 4));
        sheet[0] /= 2;
        sheet[1] = [draws.byte(0, 6), draws.byte(0, 6), draws.byte(7, 255)][draws.below(3)];
        sheet
    }

    #[test]
    fn asking_is_the_decision_for_the_entries_held() {
        let mut draws = Draws::new(7);
        let mut seen = [0; 18];
        for _ in 0..20_000 {
            let sheet = any_sheet(&mut draws);
            let at = at_minute([480, 600, 1440][draws.below(3)]);
            let count = usize::from(sheet[1].min(6));
            let group = &sheet[2..2 + 2 * count];
            let answer = decide(&SMALL_SHOP, sheet[0].into(), at, group);
            assert_eq!(sheet_ask(&SMALL_SHOP, at, &sheet), answer);
            seen[usize::from(answer)] += 1;
        }
        assert!(seen[10..].iter().all(|&times| times > 0), "{seen:?}");
        assert!(seen[0] > 0);
    }

    #[test]
    fn a_wrong_reading_keeps_the_permission_asked_for() {
        let mut sheet = NOISE;
        let wrong = Reading::PermissionKept;
        assert_eq!(sheet_open_as(wrong, &SMALL_SHOP, 7, &mut sheet), 10);
        assert_eq!((sheet[0], sheet[1]), (7, 0));
    }

    #[test]
    fn a_wrong_reading_asks_for_the_permission_at_signing() {
        let sheet = [255, 0, 0, 0, 0, 0, 0, 0, 0, 0, 0, 0, 0, 0];
        assert_eq!(signed(0, 0, sheet).0, 0);
        let wrong = Reading::PermissionAtSigning;
        assert_eq!(signed_by(wrong, 0, 0, sheet), (10, sheet));
    }

    #[test]
    fn a_wrong_reading_looks_at_the_room_first() {
        let full = claiming(6);
        for (user, role) in [(4, 2), (2, 1), (2, 2)] {
            assert_eq!(signed_by(Reading::FullFirst, user, role, full), (20, full));
        }
    }

    #[test]
    fn a_wrong_reading_lets_a_user_sign_in_another_role() {
        let base = eight_users([15; 8]);
        let sign = |reading, role| {
            let mut sheet = [0, 1, 3, 0, 0, 0, 0, 0, 0, 0, 0, 0, 0, 0];
            sheet_sign_as(reading, &base, 3, role, &mut sheet)
        };
        assert_eq!([0, 1].map(|role| sign(Reading::Paper, role)), [14, 14]);
        assert_eq!([0, 1].map(|role| sign(Reading::AnotherRole, role)), [14, 0]);
    }

    #[test]
    fn a_wrong_reading_takes_a_claim_over_six_for_none() {
        let wrong = Reading::OverSixAsNone;
        let ask = |count| sheet_ask_as(wrong, &SMALL_SHOP, at_minute(600), &claiming(count));
        assert_eq!([5, 6, 7, 255].map(ask), [13, 13, 12, 12]);
        let (answer, sheet) = signed_by(wrong, 1, 1, claiming(7));
        assert_eq!((answer, &sheet[..4]), (0, &[0, 1, 1, 1][..]));
    }

    /// By the paper users 2 and 3 stay, in this order.
    #[test]
    fn wrong_readings_of_a_withdrawal_leave_other_sheets() {
        let sheet = [0, 3, 1, 0, 2, 1, 3, 2, 0, 0, 0, 0, 0, 0];
        let after = [
            (Reading::Paper, [0, 2, 2, 1, 3, 2, 0, 0]),
            (Reading::LastIntoGap, [0, 2, 3, 2, 2, 1, 0, 0]),
            (Reading::ClearedInPlace, [0, 3, 0, 0, 2, 1, 3, 2]),
            (Reading::LaterDropped, [0, 0, 0, 0, 0, 0, 0, 0]),
            (Reading::RoleWithdrawn, [0, 2, 1, 0, 3, 2, 0, 0]),
            (Reading::FirstEntryAlone, [0, 2, 2, 1, 3, 2, 0, 0]),
            (Reading::BehindUncleared, [0, 2, 2, 1, 3, 2, 3, 2]),
        ];
        for (reading, first_bytes) in after {
            let (answer, left) = withdrawn_by(reading, 1, sheet);
            assert_eq!((answer, &left[..8]), (0, &first_bytes[..]), "{reading:?}");
            assert_eq!(left[8..], [0; 6], "{reading:?}");
        }
    }

    #[test]
    fn a_wrong_reading_withdraws_one_of_two_entries() {
        let sheet = [0, 3, 1, 0, 2, 1, 1, 2, 0, 0, 0, 0, 0, 0];
        let after = [0, 2, 2, 1, 1, 2, 0, 0, 0, 0, 0, 0, 0, 0];
        assert_eq!(withdrawn_by(Reading::FirstEntryAlone, 1, sheet), (0, after));
    }

    #[test]
    fn a_wrong_reading_finds_nobody_on_a_sheet_that_claims_over_six() {
        let wrong = Reading::OverSixAsNone;
        assert_eq!(withdrawn_by(wrong, 50, claiming(6)).0, 0);
        assert_eq!(withdrawn_by(wrong, 50, claiming(7)), (23, claiming(7)));
    }
}
