//! Multisets of up to six of eight roles, by rank: for n roles first those of
//! role 0 alone, then those whose largest role is 1, and so on; among those
//! whose largest role is r, in the order of what is left without one r. So the
//! multisets of n roles with r as the largest are the first multisets of n - 1
//! roles, each with an r more.

use crate::MOST;

/// By n and d how many multisets of n roles below d there are; also where
/// those of n roles with d as the largest start.
pub const STARTS: [[usize; 9]; 1 + MOST] = [
    [1, 1, 1, 1, 1, 1, 1, 1, 1],
    [0, 1, 2, 3, 4, 5, 6, 7, 8],
    [0, 1, 3, 6, 10, 15, 21, 28, 36],
    [0, 1, 4, 10, 20, 35, 56, 84, 120],
    [0, 1, 5, 15, 35, 70, 126, 210, 330],
    [0, 1, 6, 21, 56, 126, 252, 462, 792],
    [0, 1, 7, 28, 84, 210, 462, 924, 1716],
];

/// How many multisets of n roles below d there are.
pub fn how_many(n: usize, d: usize) -> usize {
    STARTS[n][d]
}

/// The bytes of multisets are looked at by so many at a time.
pub const CHUNK: usize = 32;

/// Filled up to whole chunks.
pub fn in_chunks(count: usize) -> usize {
    count.div_ceil(CHUNK) * CHUNK
}

/// How many bytes the levels of eight roles take, and how many multisets of up
/// to four of them there are.
pub const BYTES: usize = 3_136;
pub const UPS: usize = 495;

/// The bytes of the multisets of five of eight roles.
pub const MANY: usize = 800;

/// The same for five roles.
pub const FEW_BYTES: usize = 608;
pub const FEW_UPS: usize = 126;

/// Where the levels lie in bytes: that of n roles has one for each multiset,
/// and each level starts a chunk.
#[derive(Clone, Copy)]
pub struct Places {
    starts: [usize; 2 + MOST],
}

impl Places {
    pub fn new(roles: usize) -> Places {
        let mut starts = [0; 2 + MOST];
        for n in 0..=MOST {
            starts[n + 1] = starts[n] + in_chunks(STARTS[n][roles]);
        }
        Places { starts }
    }

    /// Where the multiset of n roles with this rank lies.
    pub fn place(&self, n: usize, rank: usize) -> usize {
        self.starts[n] + rank
    }

    /// The multisets of n roles below d, and some others up to a whole chunk.
    pub fn level<'a>(&self, bytes: &'a [u8], n: usize, d: usize) -> &'a [u8] {
        let from = self.starts[n];
        &bytes[from..from + in_chunks(STARTS[n][d])]
    }

    /// Those of n - 1 roles, and those of n.
    pub fn step<'a>(&self, bytes: &'a mut [u8], n: usize) -> (&'a [u8], &'a mut [u8]) {
        let (before, level) = bytes.split_at_mut(self.starts[n]);
        let end = self.starts[n + 1] - self.starts[n];
        (&before[self.starts[n - 1]..], &mut level[..end])
    }
}

/// The roles of a multiset of n roles, rising.
pub fn roles_of(n: usize, rank: usize) -> [usize; MOST] {
    let mut roles = [0; MOST];
    let mut rest = rank;
    for place in (0..n).rev() {
        let starts = &STARTS[place + 1];
        let mut role = 7;
        while rest < starts[role] {
            role -= 1;
        }
        roles[place] = role;
        rest -= starts[role];
    }
    roles
}

/// The rank of n rising roles without the one at a place.
pub fn rank_without(roles: &[usize; MOST], n: usize, place: usize) -> usize {
    let mut rank = 0;
    for i in 0..place {
        rank += STARTS[i + 1][roles[i]];
    }
    for i in place + 1..n {
        rank += STARTS[i][roles[i]];
    }
    rank
}

#[cfg(test)]
mod tests {
    use super::*;

    /// All multisets of n roles in the order of their ranks.
    fn all(n: usize) -> Vec<Vec<usize>> {
        if n == 0 {
            return vec![vec![]];
        }
        let less = all(n - 1);
        let with = |role: usize| {
            let below = less.iter().filter(move |m| m.iter().all(|&q| q <= role));
            below.map(move |m| [&m[..], &[role]].concat())
        };
        (0..8).flat_map(with).collect()
    }

    #[test]
    fn a_rank_tells_the_roles() {
        for (n, starts) in STARTS.iter().enumerate() {
            let all = all(n);
            assert_eq!(all.len(), starts[8]);
            for (rank, roles) in all.iter().enumerate() {
                assert_eq!(roles_of(n, rank)[..n], roles[..]);
            }
        }
    }

    #[test]
    fn a_role_less_has_a_rank_of_its_own() {
        for n in 1..=MOST {
            let before = all(n - 1);
            for rank in 0..STARTS[n][8] {
                let roles = roles_of(n, rank);
                for place in 0..n {
                    let mut less = roles[..n].to_vec();
                    less.remove(place);
                    assert_eq!(before[rank_without(&roles, n, place)], less);
                }
            }
        }
    }

    #[test]
    fn there_is_room_for_all_levels() {
        for (roles, bytes, ups) in [(8, BYTES, UPS), (5, FEW_BYTES, FEW_UPS)] {
            assert_eq!(Places::new(roles).starts[1 + MOST], bytes);
            let up_to_four = (0..=4).map(|n| STARTS[n][roles]);
            assert_eq!(up_to_four.sum::<usize>(), ups);
        }
    }
}
