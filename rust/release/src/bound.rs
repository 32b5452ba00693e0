//! What a changed weight can do.

use crate::answers;
use crate::decision::Entry;
use crate::refusal::{result_of, Refusal};

/// How far a new weight of one policy can shift the group's sum of weights: for
/// every permission and context, by every [`Resolution`](crate::Resolution) and
/// without one, the sum by the base with that weight in place of the old one
/// differs from the sum by this base by at most the result. Or the first of
/// refusals 1 to 9, 12 to 15 and 21 that applies.
///
/// The policy is its number in A, from 0 on, and the new weight is 1 to 5. The
/// numbers aren't cut: policy 256 and weight 256 get
/// [`Refusal::NoPolicyOrWeight`].
///
/// The bound is the difference of the two weights times the number of entries
/// whose role is the policy's or senior to it, whatever the policy's type,
/// permission and context. It is at most 24. The users' days play no part.
///
/// ```
/// use release::example::SMALL_SHOP;
/// use release::{bound, Entry, Refusal};
///
/// // The clerk's policy, number 2, has weight 1.
/// let manager_and_clerk = [Entry::new(0, 0), Entry::new(2, 2)];
/// assert_eq!(bound(&SMALL_SHOP, 2, 4, &manager_and_clerk), Ok(6));
/// assert_eq!(bound(&SMALL_SHOP, 2, 1, &manager_and_clerk), Ok(0));
///
/// // No clerk is senior to the manager.
/// assert_eq!(bound(&SMALL_SHOP, 0, 5, &manager_and_clerk), Ok(2));
///
/// let refused = bound(&SMALL_SHOP, 3, 4, &manager_and_clerk);
/// assert_eq!(refused, Err(Refusal::NoPolicyOrWeight));
/// ```
pub fn bound(base: &[u8], policy: u32, weight: u32, group: &[Entry]) -> Result<u32, Refusal> {
    let bytes: Vec<u8> = group.iter().flat_map(|entry| entry.bytes()).collect();
    bound_bytes(base, policy, weight, &bytes)
}

/// The same for a group as bytes, 2 an entry. They may be any bytes of any
/// length: 0, an odd one or one above 12 gets [`Refusal::GroupLength`].
///
/// ```
/// use release::example::SMALL_SHOP;
/// use release::{bound_bytes, Refusal};
///
/// assert_eq!(bound_bytes(&SMALL_SHOP, 2, 4, &[0, 0, 2, 2]), Ok(6));
///
/// let odd = bound_bytes(&SMALL_SHOP, 2, 4, &[0, 0, 2]);
/// assert_eq!(odd, Err(Refusal::GroupLength));
/// ```
pub fn bound_bytes(base: &[u8], policy: u32, weight: u32, group: &[u8]) -> Result<u32, Refusal> {
    let answer = answers::bound(base, policy, weight, group);
    result_of(answer.refusal)?;
    Ok(answer.count)
}

#[cfg(test)]
mod tests {
    use super::*;
    use crate::example::SMALL_SHOP;

    const MANAGER: [u8; 2] = [0, 0];
    const BUYER: [u8; 2] = [1, 1];
    const CLERK: [u8; 2] = [2, 2];

    /// The small shop's result: its policies are the manager's of weight 3, the
    /// buyer's of 1 and the clerk's of 1.
    fn of_shop(policy: u32, weight: u32, group: &[[u8; 2]]) -> Result<u32, Refusal> {
        let entries: Vec<Entry> = group.iter().map(|&[u, r]| Entry::new(u, r)).collect();
        let by_entries = bound(&SMALL_SHOP, policy, weight, &entries);
        let by_bytes = bound_bytes(&SMALL_SHOP, policy, weight, &group.concat());
        assert_eq!(by_entries, by_bytes);
        by_entries
    }

    #[test]
    fn entries_in_the_policys_role_and_in_its_seniors_count() {
        let all = [MANAGER, BUYER, CLERK, [3, 2]];
        assert_eq!(of_shop(0, 5, &all), Ok(2));
        assert_eq!(of_shop(1, 5, &all), Ok(8));
        assert_eq!(of_shop(2, 5, &all), Ok(16));
        assert_eq!(of_shop(1, 5, &[CLERK]), Ok(0));
    }

    /// The manager acts as a clerk, who is senior to nobody.
    #[test]
    fn the_role_acted_in_counts() {
        assert_eq!(of_shop(1, 5, &[MANAGER]), Ok(4));
        assert_eq!(of_shop(1, 5, &[[0, 2]]), Ok(0));
    }

    #[test]
    fn refusals_come_in_order() {
        let no_base = bound(&SMALL_SHOP[..35], 3, 0, &[]);
        assert_eq!(no_base, Err(Refusal::Length));
        assert_eq!(of_shop(3, 0, &[]), Err(Refusal::GroupLength));
        assert_eq!(of_shop(3, 0, &[MANAGER; 7]), Err(Refusal::GroupLength));
        assert_eq!(of_shop(3, 0, &[[4, 0]]), Err(Refusal::NoUserOrRole));
        assert_eq!(of_shop(3, 0, &[CLERK, CLERK]), Err(Refusal::UserTwice));
        assert_eq!(of_shop(3, 0, &[[2, 0]]), Err(Refusal::Membership));
        assert_eq!(of_shop(3, 0, &[CLERK]), Err(Refusal::NoPolicyOrWeight));
    }

    #[test]
    fn numbers_are_not_cut() {
        for (policy, weight) in [(3, 1), (256, 1), (u32::MAX, 1), (0, 0), (0, 6), (0, 257)] {
            let refused = of_shop(policy, weight, &[CLERK]);
            assert_eq!(refused, Err(Refusal::NoPolicyOrWeight));
        }
    }
}
