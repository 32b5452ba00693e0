//! The conflict list.

use crate::answers;
use crate::refusal::Refusal;

/// Bytes of a conflict in the list: kind, first, second.
pub const CONFLICT_BYTES: usize = 3;

/// Two records of a base that conflict, by their numbers.
#[derive(Clone, Copy, Debug, PartialEq, Eq, PartialOrd, Ord, Hash)]
pub enum Conflict {
    /// Kind 1: two policies of equal role and permission, whose contexts can
    /// hold together, with different weight or type.
    Policies {
        /// The first policy's number.
        first: u8,
        /// The second policy's number.
        second: u8,
    },
    /// Kind 2: two policies for permissions that exclude each other, and some
    /// role is covered by both, whatever their contexts. A policy covers its
    /// role and, if its type is 1, that role's seniors.
    Permissions {
        /// The first policy's number.
        first: u8,
        /// The second policy's number.
        second: u8,
    },
    /// Kind 3: a user who may act in both roles of an exclusion, on whatever days.
    /// A user may act in the roles held and in their juniors.
    Roles {
        /// The user's number.
        user: u8,
        /// The exclusion's number.
        exclusion: u8,
    },
}

impl Conflict {
    /// The conflict in these bytes, if they are one.
    ///
    /// ```
    /// use release::Conflict;
    ///
    /// let conflict = Conflict::Roles { user: 5, exclusion: 0 };
    /// assert_eq!(Conflict::from_bytes([3, 5, 0]), Some(conflict));
    /// assert_eq!(Conflict::from_bytes([0, 5, 0]), None);
    /// ```
    pub fn from_bytes(bytes: [u8; CONFLICT_BYTES]) -> Option<Conflict> {
        match bytes {
            [1, first, second] => Some(Conflict::Policies { first, second }),
            [2, first, second] => Some(Conflict::Permissions { first, second }),
            [3, user, exclusion] => Some(Conflict::Roles { user, exclusion }),
            _ => None,
        }
    }

    /// The conflict as it stands in the list.
    ///
    /// ```
    /// use release::Conflict;
    ///
    /// let conflict = Conflict::Policies { first: 0, second: 1 };
    /// assert_eq!(conflict.bytes(), [1, 0, 1]);
    /// ```
    pub fn bytes(self) -> [u8; CONFLICT_BYTES] {
        match self {
            Conflict::Policies { first, second } => [1, first, second],
            Conflict::Permissions { first, second } => [2, first, second],
            Conflict::Roles { user, exclusion } => [3, user, exclusion],
        }
    }
}

/// All conflicts of a base, by kind, then first, then second; or the first of
/// refusals 1 to 9 that applies.
///
/// It asks [`conflict_count`] and then for the list with a buffer that is just
/// long enough; where nothing conflicts the first call suffices.
///
/// ```
/// use release::example::SMALL_SHOP;
/// use release::{conflicts, Conflict};
///
/// assert_eq!(conflicts(&SMALL_SHOP), Ok(vec![]));
///
/// // The manager's policy made a second one of the buyer.
/// let mut shop = SMALL_SHOP;
/// shop[70] = 1;
/// let pair = Conflict::Policies { first: 0, second: 1 };
/// assert_eq!(conflicts(&shop), Ok(vec![pair]));
/// ```
pub fn conflicts(base: &[u8]) -> Result<Vec<Conflict>, Refusal> {
    let count = conflict_count(base)?;
    if count == 0 {
        return Ok(Vec::new());
    }
    let mut list = vec![0; CONFLICT_BYTES * count];
    conflicts_into(base, &mut list)?;
    let (records, _) = list.as_chunks::<CONFLICT_BYTES>();
    let conflicts = records.iter().map(|record| Conflict::from_bytes(*record));
    Ok(conflicts
        .collect::<Option<_>>()
        .expect("the library writes kinds 1 to 3"))
}

/// How many conflicts a base has, or the first of refusals 1 to 9 that
/// applies.
///
/// ```
/// use release::conflict_count;
/// use release::example::SMALL_SHOP;
///
/// assert_eq!(conflict_count(&SMALL_SHOP), Ok(0));
/// ```
pub fn conflict_count(base: &[u8]) -> Result<usize, Refusal> {
    let answer = answers::conflicts(base, &mut []);
    match answer.counted() {
        Err(Refusal::ConflictBuffer) => Ok(answer.count as usize),
        result => result,
    }
}

/// Writes the list into the buffer's first bytes, 3 a conflict: kind, first,
/// second. Later bytes keep their contents. The result is the number of
/// conflicts, or the first of refusals 1 to 9 and 18 that applies. No refusal
/// writes.
///
/// ```
/// use release::example::SMALL_SHOP;
/// use release::{conflicts_into, Refusal};
///
/// // The manager's policy made a second one of the buyer.
/// let mut shop = SMALL_SHOP;
/// shop[70] = 1;
/// let mut buffer = [7; 4];
/// assert_eq!(conflicts_into(&shop, &mut buffer), Ok(1));
/// assert_eq!(buffer, [1, 0, 1, 7]);
///
/// let short = conflicts_into(&shop, &mut buffer[..2]);
/// assert_eq!(short, Err(Refusal::ConflictBuffer));
/// ```
pub fn conflicts_into(base: &[u8], buffer: &mut [u8]) -> Result<usize, Refusal> {
    answers::conflicts(base, buffer).counted()
}

#[cfg(test)]
mod tests {
    use super::*;
    use crate::example::SMALL_SHOP;

    /// The small shop with its three policies made the buyer's.
    fn three_conflicts() -> [u8; 130] {
        let mut shop = SMALL_SHOP;
        (shop[70], shop[78], shop[86]) = (1, 1, 1);
        (shop[72], shop[80], shop[88]) = (1, 2, 3);
        shop
    }

    #[test]
    fn the_list_has_all_conflicts() {
        let pairs = [(0, 1), (0, 2), (1, 2)];
        let expected = pairs.map(|(first, second)| Conflict::Policies { first, second });
        assert_eq!(conflicts(&three_conflicts()), Ok(expected.to_vec()));
        assert_eq!(conflict_count(&three_conflicts()), Ok(3));
    }

    /// The small shop with an exclusion of these roles before its trailer.
    fn excluding(a: u8, b: u8) -> Vec<u8> {
        let mut shop = SMALL_SHOP.to_vec();
        shop.splice(94..94, [0, a, b]);
        shop[94 + 3 + 26] = 1;
        shop
    }

    /// The manager may act as buyer and as clerk, the buyer as clerk.
    #[test]
    fn who_may_act_in_both_roles_conflicts() {
        let of = |user| Conflict::Roles { user, exclusion: 0 };
        assert_eq!(conflicts(&excluding(0, 1)), Ok(vec![of(0)]));
        assert_eq!(conflicts(&excluding(0, 2)), Ok(vec![of(0)]));
        assert_eq!(conflicts(&excluding(1, 2)), Ok(vec![of(0), of(1)]));
    }

    #[test]
    fn a_refused_base_has_no_list() {
        let base = &SMALL_SHOP[1..];
        assert_eq!(conflicts(base), Err(Refusal::Trailer));
        assert_eq!(conflict_count(base), Err(Refusal::Trailer));
        assert_eq!(conflicts_into(base, &mut [0; 9]), Err(Refusal::Trailer));
    }

    #[test]
    fn a_buffer_that_is_too_short_is_kept() {
        let mut buffer = [7; 9];
        for length in 0..9 {
            let refused = conflicts_into(&three_conflicts(), &mut buffer[..length]);
            assert_eq!(refused, Err(Refusal::ConflictBuffer));
            assert_eq!(buffer, [7; 9]);
        }
    }

    #[test]
    fn bytes_and_conflicts_go_both_ways() {
        for bytes in [[1, 0, 63], [2, 4, 5], [3, 23, 31]] {
            let conflict = Conflict::from_bytes(bytes).expect("a conflict");
            assert_eq!(conflict.bytes(), bytes);
        }
        assert_eq!(Conflict::from_bytes([4, 0, 1]), None);
        assert_eq!(Conflict::from_bytes([255; 3]), None);
    }
}
