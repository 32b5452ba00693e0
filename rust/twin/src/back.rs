//! From a multiset of roles that meets a clause back to a group's entries.

use crate::allowed::Allowed;
use crate::ends::NextEnds;
use crate::multisets::{rank_without, roles_of};
use crate::MOST;

/// The bytes of a group that acts in the multiset of n roles with this rank.
pub fn group(allowed: &Allowed, next_ends: &NextEnds, n: usize, rank: usize) -> [u8; 2 * MOST] {
    let mut roles = roles_of(n, rank);
    let mut group = [255; 2 * MOST];
    let mut end = allowed.end(n, rank);
    for left in (1..=n).rev() {
        let (place, before) = step_back(allowed, next_ends, &roles, left, end);
        group[2 * left - 2] = end - 1;
        group[2 * left - 1] = roles[place] as u8;
        roles.copy_within(place + 1..left, place);
        end = before;
    }
    group
}

/// The place of a role that may be the last entry's, whose user ends at `end`,
/// and the end of the entries before.
fn step_back(
    allowed: &Allowed,
    next_ends: &NextEnds,
    roles: &[usize; MOST],
    n: usize,
    end: u8,
) -> (usize, u8) {
    for place in 0..n {
        let before = allowed.end(n - 1, rank_without(roles, n, place));
        if next_ends[usize::from(before)][roles[place]] == end {
            return (place, before);
        }
    }
    (0, 0)
}
