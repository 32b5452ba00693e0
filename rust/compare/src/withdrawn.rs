//! Where on a sheet a user stands who withdraws.

use model::Sheet;

/// Which of the entries held name a user.
#[derive(Clone, Copy, Debug, PartialEq, Eq)]
pub enum Place {
    /// The one entry held.
    Only,
    First,
    Middle,
    Last,
    /// Two entries or more.
    Several,
}

/// Why no entry held names a user.
#[derive(Clone, Copy, Debug, PartialEq, Eq)]
pub enum Absence {
    /// The number is above 255.
    AboveBytes,
    /// Only bytes behind the entries held name the user.
    Behind,
    /// An entry held has the number as its role.
    RoleAlone,
    Nowhere,
}

/// How many entries a sheet claims.
#[derive(Clone, Copy, Debug, PartialEq, Eq)]
pub enum Claim {
    BelowSix,
    Six,
    OverSix,
}

/// Where the user stands, or why nowhere.
pub fn place(user: u32, sheet: &Sheet) -> Result<Place, Absence> {
    let held = held(sheet);
    let mut places = places_of(user, &sheet[2..]);
    places.retain(|place| *place < held);
    match places[..] {
        [] => Err(absence(user, sheet)),
        [_] if held == 1 => Ok(Place::Only),
        [0] => Ok(Place::First),
        [place] if place + 1 == held => Ok(Place::Last),
        [_] => Ok(Place::Middle),
        _ => Ok(Place::Several),
    }
}

fn absence(user: u32, sheet: &Sheet) -> Absence {
    let roles = places_of(user, &sheet[3..]);
    if user > 255 {
        Absence::AboveBytes
    } else if !places_of(user, &sheet[2..]).is_empty() {
        Absence::Behind
    } else if roles.iter().any(|place| *place < held(sheet)) {
        Absence::RoleAlone
    } else {
        Absence::Nowhere
    }
}

/// Where the number stands among every second byte.
fn places_of(number: u32, bytes: &[u8]) -> Vec<usize> {
    let bytes = (0..).zip(bytes.iter().step_by(2));
    let found = bytes.filter(|(_, byte)| u32::from(**byte) == number);
    found.map(|(place, _)| place).collect()
}

fn held(sheet: &Sheet) -> usize {
    usize::from(sheet[1]).min(6)
}

pub fn claim(sheet: &Sheet) -> Claim {
    match sheet[1] {
        0..=5 => Claim::BelowSix,
        6 => Claim::Six,
        7.. => Claim::OverSix,
    }
}

#[cfg(test)]
mod tests {
    use super::*;

    #[test]
    fn a_user_stands_in_an_entry_held() {
        let sheet = |count| [9, count, 1, 21, 2, 22, 3, 23, 4, 24, 5, 25, 1, 26];
        assert_eq!(place(1, &sheet(1)), Ok(Place::Only));
        assert_eq!(place(1, &sheet(2)), Ok(Place::First));
        assert_eq!(place(2, &sheet(2)), Ok(Place::Last));
        assert_eq!(place(2, &sheet(3)), Ok(Place::Middle));
        assert_eq!(place(5, &sheet(5)), Ok(Place::Last));
        for count in [6, 7, 255] {
            assert_eq!(place(1, &sheet(count)), Ok(Place::Several));
            assert_eq!(place(5, &sheet(count)), Ok(Place::Middle));
        }
    }

    #[test]
    fn a_user_stands_in_no_entry_held() {
        let sheet = [9, 2, 1, 21, 2, 22, 3, 23, 4, 24, 5, 25, 0, 0];
        for user in [256, 257, u32::MAX] {
            assert_eq!(place(user, &sheet), Err(Absence::AboveBytes));
        }
        for user in [3, 4, 5, 0] {
            assert_eq!(place(user, &sheet), Err(Absence::Behind));
        }
        for user in [21, 22] {
            assert_eq!(place(user, &sheet), Err(Absence::RoleAlone));
        }
        for user in [9, 23, 25, 255] {
            assert_eq!(place(user, &sheet), Err(Absence::Nowhere));
        }
    }

    #[test]
    fn a_sheet_claims_below_six_or_six_or_over() {
        let claims = [0, 5, 6, 7, 255].map(|count| {
            let mut sheet = [9; 14];
            sheet[1] = count;
            claim(&sheet)
        });
        let [below, over] = [Claim::BelowSix, Claim::OverSix];
        assert_eq!(claims, [below, below, Claim::Six, over, over]);
    }
}
