//! The decision for one group.

use crate::answers;
use crate::context::Context;
use crate::refusal::{result_of, Refusal};
use crate::resolution::Resolution;

/// A user in a group, and the role that the user acts in.
#[derive(Clone, Copy, Debug, PartialEq, Eq, Hash)]
pub struct Entry {
    /// The user's number in the base.
    pub user: u8,
    /// The role's number.
    pub role: u8,
}

impl Entry {
    /// An entry by user and role.
    ///
    /// ```
    /// let clerk = release::Entry::new(3, 2);
    /// assert_eq!((clerk.user, clerk.role), (3, 2));
    /// ```
    pub fn new(user: u8, role: u8) -> Entry {
        Entry { user, role }
    }

    /// The entry as it stands in a group's bytes.
    ///
    /// ```
    /// assert_eq!(release::Entry::new(3, 2).bytes(), [3, 2]);
    /// ```
    pub fn bytes(self) -> [u8; 2] {
        [self.user, self.role]
    }
}

/// The entries in these bytes, 2 each: the first ones, so many or as many as
/// there are.
pub(crate) fn first_entries(bytes: &[u8], count: usize) -> impl Iterator<Item = Entry> + '_ {
    let entries = bytes.chunks_exact(2).take(count);
    entries.map(|entry| Entry::new(entry[0], entry[1]))
}

/// Whether the group may release the permission: `Ok` if it is granted, else
/// the first of refusals 1 to 15, 24, 16 and 17 that applies. The order of the
/// entries doesn't matter. A user may act in a role that the user holds, or that
/// is junior to one that the user holds; the role acted in counts. Each user's
/// days have to include the context's date, and both the first and the last day
/// are among them.
///
/// ```
/// use release::example::SMALL_SHOP;
/// use release::{decide, Context, Entry, Refusal};
///
/// let manager_and_clerk = [Entry::new(0, 0), Entry::new(2, 2)];
/// let by_day = Context::new(600, 0, 0, 900);
/// assert_eq!(decide(&SMALL_SHOP, 0, by_day, &manager_and_clerk), Ok(()));
///
/// let early = Context::new(480, 0, 0, 900);
/// let refused = decide(&SMALL_SHOP, 0, early, &manager_and_clerk);
/// assert_eq!(refused, Err(Refusal::NoWeight));
///
/// let manager_and_buyer_as_clerk = [Entry::new(0, 0), Entry::new(1, 2)];
/// assert_eq!(decide(&SMALL_SHOP, 0, by_day, &manager_and_buyer_as_clerk), Ok(()));
///
/// let clerk_as_buyer = [Entry::new(0, 0), Entry::new(2, 1)];
/// let refused = decide(&SMALL_SHOP, 0, by_day, &clerk_as_buyer);
/// assert_eq!(refused, Err(Refusal::Membership));
///
/// // User 2 is a clerk up to day 899.
/// let mut shop = SMALL_SHOP;
/// shop[26..28].copy_from_slice(&899_u16.to_le_bytes());
/// let refused = decide(&shop, 0, by_day, &manager_and_clerk);
/// assert_eq!(refused, Err(Refusal::OutOfDate));
/// ```
pub fn decide(
    base: &[u8],
    permission: u32,
    context: Context,
    group: &[Entry],
) -> Result<(), Refusal> {
    let bytes: Vec<u8> = group.iter().flat_map(|entry| entry.bytes()).collect();
    decide_bytes(base, permission, context, &bytes)
}

/// The same for a group as bytes, 2 an entry. They may be any bytes of any
/// length: 0, an odd one or one above 12 gets [`Refusal::GroupLength`].
///
/// ```
/// use release::example::SMALL_SHOP;
/// use release::{decide_bytes, Context, Refusal};
///
/// let by_day = Context::new(600, 0, 0, 900);
/// assert_eq!(decide_bytes(&SMALL_SHOP, 0, by_day, &[0, 0, 2, 2]), Ok(()));
///
/// let odd = decide_bytes(&SMALL_SHOP, 0, by_day, &[0, 0, 2]);
/// assert_eq!(odd, Err(Refusal::GroupLength));
/// ```
pub fn decide_bytes(
    base: &[u8],
    permission: u32,
    context: Context,
    group: &[u8],
) -> Result<(), Refusal> {
    result_of(answers::decide(base, permission, context, group))
}

/// The same by a resolution list: where several policies of a role for the
/// permission are active, the list chooses which one counts, in place of table
/// order. Of those of type 1 it chooses which one seniors inherit.
///
/// `Ok` if the group is granted, else the first of refusals 1 to 15, 24, 16 and
/// 17 that applies.
///
/// ```
/// use release::example::SMALL_SHOP;
/// use release::{decide, decide_by, Context, Entry, Refusal, Resolution, Rule};
///
/// // The buyer's policy made a second one of the manager: of weight 1, and from
/// // a later day.
/// let mut shop = SMALL_SHOP;
/// (shop[78], shop[84]) = (0, 1);
/// let by_day = Context::new(600, 0, 0, 900);
/// let manager_and_clerk = [Entry::new(0, 0), Entry::new(2, 2)];
/// assert_eq!(decide(&shop, 0, by_day, &manager_and_clerk), Ok(()));
///
/// let newest = Resolution::by(Rule::LaterDay);
/// let refused = decide_by(&shop, 0, by_day, newest, &manager_and_clerk);
/// assert_eq!(refused, Err(Refusal::Condition));
///
/// let highest = Resolution::by(Rule::LargerRank);
/// assert_eq!(decide_by(&shop, 0, by_day, highest, &manager_and_clerk), Ok(()));
/// ```
pub fn decide_by(
    base: &[u8],
    permission: u32,
    context: Context,
    resolution: Resolution,
    group: &[Entry],
) -> Result<(), Refusal> {
    let bytes: Vec<u8> = group.iter().flat_map(|entry| entry.bytes()).collect();
    decide_by_bytes(base, permission, context, resolution.bytes(), &bytes)
}

/// The same for a list and a group as bytes. They may be any bytes of any
/// length: a list that is empty, longer than 3, repeats a rule or holds another
/// byte gets [`Refusal::Resolution`], after refusals 1 to 9 and before all
/// others.
///
/// ```
/// use release::example::SMALL_SHOP;
/// use release::{decide_by_bytes, Context, Refusal};
///
/// let by_day = Context::new(600, 0, 0, 900);
/// let by = |list: &[u8]| decide_by_bytes(&SMALL_SHOP, 0, by_day, list, &[0, 0, 2, 2]);
/// assert_eq!(by(&[2, 0, 1]), Ok(()));
/// for no_list in [&[][..], &[3], &[0, 0], &[0, 1, 2, 0]] {
///     assert_eq!(by(no_list), Err(Refusal::Resolution));
/// }
/// ```
pub fn decide_by_bytes(
    base: &[u8],
    permission: u32,
    context: Context,
    list: &[u8],
    group: &[u8],
) -> Result<(), Refusal> {
    result_of(answers::decide_by(base, permission, context, list, group))
}

#[cfg(test)]
mod tests {
    use super::*;
    use crate::example::SMALL_SHOP;
    use crate::resolution::Rule;

    /// The answer for as many entries, all of users that aren't there.
    fn answer(entries: usize) -> Result<(), Refusal> {
        let group = vec![Entry::new(9, 9); entries];
        decide(&SMALL_SHOP, 0, Context::new(600, 0, 0, 900), &group)
    }

    /// By day the roles weigh 5, 2 and 1: the manager as buyer, the buyer and a
    /// clerk have 5.
    #[test]
    fn a_manager_acts_as_a_buyer() {
        let decided = |group: &[[u8; 2]]| {
            let by_day = Context::new(600, 0, 0, 900);
            decide_bytes(&SMALL_SHOP, 0, by_day, &group.concat())
        };
        assert_eq!(decided(&[[0, 1], [1, 1], [2, 2]]), Ok(()));
        assert_eq!(decided(&[[0, 1], [1, 1]]), Err(Refusal::Condition));
        let as_manager = decided(&[[0, 1], [1, 0], [2, 2]]);
        assert_eq!(as_manager, Err(Refusal::Membership));
    }

    /// The clerks' policy made a second one of the manager, by day: of the later
    /// day, the smaller rank and the smaller weight.
    fn two_of_the_manager() -> [u8; 130] {
        let mut shop = SMALL_SHOP;
        (shop[75], shop[86], shop[92]) = (1, 0, 1);
        shop
    }

    /// Without the second one the manager weighs 4 and the buyer 1, which suffice;
    /// with it they have 3.
    #[test]
    fn a_list_chooses_the_policy_that_counts() {
        let decided = |minute, rule| {
            let context = Context::new(minute, 0, 0, 900);
            let group = [Entry::new(0, 0), Entry::new(1, 1)];
            let list = Resolution::by(rule);
            decide_by(&two_of_the_manager(), 0, context, list, &group)
        };
        assert_eq!(decided(600, Rule::LaterDay), Err(Refusal::Condition));
        assert_eq!(decided(600, Rule::LargerRank), Ok(()));
        assert_eq!(decided(600, Rule::SmallerWeight), Err(Refusal::Condition));
        for rule in Rule::ALL {
            assert_eq!(decided(480, rule), Ok(()));
        }
    }

    /// The small shop whose user 2, a clerk, has these days.
    fn clerk_with_days(first: u16, last: u16) -> [u8; 130] {
        let mut shop = SMALL_SHOP;
        shop[24..26].copy_from_slice(&first.to_le_bytes());
        shop[26..28].copy_from_slice(&last.to_le_bytes());
        shop
    }

    /// The decision on the group on a date, by day and by a list too.
    fn decided_on(date: u32, shop: &[u8], group: &[[u8; 2]]) -> Result<(), Refusal> {
        let at = Context::new(600, 0, 0, date);
        let decided = decide_bytes(shop, 0, at, &group.concat());
        let by_list = decide_by_bytes(shop, 0, at, &[1], &group.concat());
        assert_eq!(decided, by_list);
        decided
    }

    #[test]
    fn both_days_are_included() {
        for (first, last) in [(900, 900), (900, 907), (1, 900), (900, 65_534)] {
            let shop = clerk_with_days(first, last);
            let decided = |date: u16| decided_on(date.into(), &shop, &[[0, 0], [2, 2]]);
            for date in [first, last] {
                assert_eq!(decided(date), Ok(()));
            }
            for date in [first - 1, last + 1] {
                assert_eq!(decided(date), Err(Refusal::OutOfDate));
            }
        }
    }

    /// The clerk's day is 901: with the manager, before a buyer who acts as the
    /// manager, alone, and behind a clerk without weight.
    #[test]
    fn the_days_come_after_membership_and_before_weights() {
        let shop = clerk_with_days(901, 901);
        let decided = |group: &[[u8; 2]]| decided_on(900, &shop, group);
        assert_eq!(decided(&[[0, 0], [2, 2]]), Err(Refusal::OutOfDate));
        assert_eq!(decided(&[[2, 2], [1, 0]]), Err(Refusal::Membership));
        assert_eq!(decided(&[[2, 2]]), Err(Refusal::OutOfDate));
        let early = Context::new(480, 0, 0, 900);
        let weightless = decide_bytes(&shop, 0, early, &[3, 2, 2, 2]);
        assert_eq!(weightless, Err(Refusal::OutOfDate));
    }

    #[test]
    fn a_date_is_not_cut() {
        let group = [[0, 0], [2, 2]];
        assert_eq!(decided_on(65_535, &SMALL_SHOP, &group), Ok(()));
        for date in [65_536, 65_536 + 900, u32::MAX] {
            let decided = decided_on(date, &SMALL_SHOP, &group);
            assert_eq!(decided, Err(Refusal::Context));
        }
    }

    #[test]
    fn a_list_is_refused_behind_the_base_and_before_all_else() {
        let late = Context::new(1440, 0, 0, 900);
        for list in [&[][..], &[1, 1], &[255], &[2, 1, 0, 2]] {
            let no_base = decide_by_bytes(&SMALL_SHOP[1..], 1, late, list, &[]);
            assert_eq!(no_base, Err(Refusal::Trailer));
            let refused = decide_by_bytes(&SMALL_SHOP, 1, late, list, &[]);
            assert_eq!(refused, Err(Refusal::Resolution));
        }
        let refused = decide_by_bytes(&SMALL_SHOP, 1, late, &[2, 1, 0], &[]);
        assert_eq!(refused, Err(Refusal::NoPermission));
    }

    #[test]
    fn a_group_has_one_to_six_entries() {
        for entries in 1..=6 {
            assert_eq!(answer(entries), Err(Refusal::NoUserOrRole));
        }
        for entries in [0, 7, 128, 129, 32_768, 70_000] {
            assert_eq!(answer(entries), Err(Refusal::GroupLength));
        }
    }
}
