//! The calls on a sheet: a permission, how many entries it claims, and six
//! entries.

use model::{Context, Sheet};

use crate::base::Base;
use crate::groups::may_act;
use crate::weights::juniors;
use crate::{decide, MOST};

/// Opens the sheet: unsigned, for the permission or, where one of refusals 1 to
/// 10 applies, for 255.
pub fn sheet_open(base: &[u8], permission: u32, sheet: &mut Sheet) -> u8 {
    let refusal = match Base::read(base) {
        Ok(base) if permission < base.permissions.len() as u32 => 0,
        Ok(_) => 10,
        Err(refusal) => refusal,
    };
    *sheet = [0; 14];
    sheet[0] = if refusal == 0 { permission as u8 } else { 255 };
    refusal
}

/// Writes the entry behind those held, or gives the first of refusals 1 to 9,
/// 13 to 15 and 20 that applies. No refusal writes.
pub fn sheet_sign(base: &[u8], user: u32, role: u32, sheet: &mut Sheet) -> u8 {
    let held = held(sheet);
    let entry = match new_entry(base, user, role, held) {
        Ok(entry) => entry,
        Err(refusal) => return refusal,
    };
    let count = held.len();
    sheet[1] = count as u8 + 1;
    sheet[2 + 2 * count..][..2].copy_from_slice(&entry);
    0
}

/// Takes the user's entries out: those behind move up, and the bytes left over
/// are 0. Where there is none it is 23, and each entry stays in its place.
pub fn sheet_withdraw(user: u32, sheet: &mut Sheet) -> u8 {
    let [_, claimed, entries @ ..] = sheet;
    let entries = entries.as_chunks_mut().0;
    let count = usize::from(*claimed).min(MOST);
    let mut staying = 0;
    for place in 0..count {
        let entry: [u8; 2] = entries[place];
        entries[staying] = entry;
        staying += usize::from(u32::from(entry[0]) != user);
    }
    if staying == count {
        return 23;
    }
    *claimed = staying as u8;
    entries[staying..].fill([0; 2]);
    0
}

/// The decision for the sheet's permission and the entries held.
pub fn sheet_ask(base: &[u8], at: Context, sheet: &Sheet) -> u8 {
    decide(base, sheet[0].into(), at, held(sheet).as_flattened())
}

/// As many entries as the sheet claims, or all six.
fn held(sheet: &Sheet) -> &[[u8; 2]] {
    let [_, claimed, entries @ ..] = sheet;
    &entries.as_chunks().0[..usize::from(*claimed).min(MOST)]
}

/// The entry, or its refusal.
fn new_entry(base: &[u8], user: u32, role: u32, held: &[[u8; 2]]) -> Result<[u8; 2], u8> {
    let base = Base::read(base)?;
    if base.users.len() as u32 <= user || u32::from(base.roles) <= role {
        return Err(13);
    }
    let entry = [user as u8, role as u8];
    if held.iter().any(|other| other[0] == entry[0]) {
        return Err(14);
    }
    if !may_act(&base, &entry, || juniors(base.hierarchy)) {
        return Err(15);
    }
    if held.len() == MOST {
        return Err(20);
    }
    Ok(entry)
}

#[cfg(test)]
mod tests {
    use super::*;

    /// Every claim, and every way in which user 1 can stand among six entries.
    #[test]
    fn a_withdrawal_is_the_models() {
        for claimed in 0..=255 {
            for places in 0..64 {
                let mut sheet = [9, claimed, 0, 10, 0, 11, 0, 12, 0, 13, 0, 14, 0, 15];
                (0..MOST).for_each(|place| sheet[2 + 2 * place] = places >> place & 1);
                for user in [0, 1, 2, 10, 256, 257, u32::MAX] {
                    let (mut by_twin, mut by_model) = (sheet, sheet);
                    let answer = sheet_withdraw(user, &mut by_twin);
                    assert_eq!(answer, model::sheet_withdraw(user, &mut by_model));
                    assert_eq!(by_twin, by_model, "{user} of {sheet:?}");
                }
            }
        }
    }
}
