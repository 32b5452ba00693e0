//! The search: for each permission the sums of all multisets of n roles, n by
//! n, up to the first multiset that meets a clause; then back to a group.

use crate::allowed::Allowed;
use crate::back::group;
use crate::base::Base;
use crate::ends::NextEnds;
use crate::masks::{mark, role_nums, Masks};
use crate::multisets::{Places, BYTES, CHUNK, FEW_BYTES, FEW_UPS, STARTS, UPS};
use crate::weights::{weighed, Weights};
use crate::RECORD;

/// What is the same for all permissions.
struct Search<'a> {
    base: &'a Base<'a>,
    next_ends: &'a NextEnds,
    /// The number of roles of each set.
    role_nums: [u8; 256],
}

/// Writes the records, by each permission's weights; the number of permissions
/// that have a group.
pub fn fill(
    base: &Base,
    w: &[Weights; 16],
    next_ends: &NextEnds,
    records: &mut [[u8; RECORD]],
) -> u32 {
    let search = Search {
        base,
        next_ends,
        role_nums: role_nums(),
    };
    match base.roles {
        ..=5 => search.fill::<FEW_BYTES, FEW_UPS>(w, records),
        _ => search.fill::<BYTES, UPS>(w, records),
    }
}

impl Search<'_> {
    #[inline(never)]
    fn fill<const BYTES: usize, const UPS: usize>(
        &self,
        w: &[Weights; 16],
        records: &mut [[u8; RECORD]],
    ) -> u32 {
        let (mut sets, mut ends) = ([0; BYTES], [0; BYTES]);
        let mut ups = [[0; 8]; UPS];
        let mut allowed = Allowed::new(self.base.roles.into(), &mut sets, &mut ends, &mut ups);
        let mut sums = [0; BYTES];
        let mut count = 0;
        for (permission, (w, record)) in w.iter().zip(records).enumerate() {
            *record = [255; RECORD];
            record[0] = 0;
            count += self.smallest(permission, w, &mut allowed, &mut sums, record);
        }
        count
    }

    /// Writes a smallest group, if there is one: 1 then, else 0.
    fn smallest(
        &self,
        permission: usize,
        w: &Weights,
        allowed: &mut Allowed,
        sums: &mut [u8],
        record: &mut [u8; RECORD],
    ) -> u32 {
        let weighed = weighed(w);
        if weighed.heavy == 0 {
            return 0;
        }
        let (mut sum_masks, mut set_masks) = ([0; 256], [0; 256]);
        let rows = mark(
            self.base.clauses,
            permission,
            weighed,
            &self.role_nums,
            &mut sum_masks,
            &mut set_masks,
        );
        for n in 1..=rows.last() {
            add(w, n, weighed.end, &allowed.places, sums);
            if rows.row(n) == 0 {
                continue;
            }
            while allowed.known < n {
                allowed.extend(self.next_ends);
            }
            if allowed.most < n {
                return 0;
            }
            let sets = allowed.places.level(allowed.sets, n, weighed.end);
            let sums = allowed.places.level(sums, n, weighed.end);
            if let Some(rank) = meeting((&sum_masks, &set_masks), rows.row(n), sets, sums) {
                record[0] = n as u8;
                record[1..].copy_from_slice(&group(allowed, self.next_ends, n, rank));
                return 1;
            }
        }
        0
    }
}

/// The sums of the multisets of n roles below d from those of n - 1.
#[inline(never)]
pub fn add(w: &Weights, n: usize, d: usize, places: &Places, sums: &mut [u8]) {
    let (before, sums) = places.step(sums, n);
    for (r, x) in w.iter().enumerate().take(d) {
        let before = &before[..STARTS[n - 1][r + 1]];
        let start = STARTS[n][r];
        let block = &mut sums[start..start + before.len()];
        for (sum, before) in block.iter_mut().zip(before) {
            *sum = before + x;
        }
    }
}

/// The rank of the first multiset that meets a clause of the row by its sum
/// and its set; by chunks.
#[inline(never)]
pub fn meeting(
    (sum_masks, set_masks): (&Masks, &Masks),
    row: u64,
    sets: &[u8],
    sums: &[u8],
) -> Option<usize> {
    let (sets, sums) = (sets.as_chunks::<CHUNK>().0, sums.as_chunks::<CHUNK>().0);
    for (c, (sets, sums)) in sets.iter().zip(sums).enumerate() {
        let met = |i| sum_masks[usize::from(sums[i])] & set_masks[usize::from(sets[i])];
        let some = (0..CHUNK).map(met).fold(0, |some, met| some | met);
        if some & row != 0 {
            let place = (0..CHUNK).find(|&i| met(i) & row != 0);
            return place.map(|i| CHUNK * c + i);
        }
    }
    None
}
