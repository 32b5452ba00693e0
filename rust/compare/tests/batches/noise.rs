//! The entries that don't count may hold any bytes.

use crate::setups::*;
use compare::batches::{query, Query, QUERY};

/// The queries with these bytes in place of those behind the entries that count.
fn with_behind(kinds: &[(Query, u8)], behind: [u8; 12]) -> (Vec<Query>, Vec<u8>) {
    let with = |(query, answer): &(Query, u8)| {
        let mut query = *query;
        let counted = 2 + 2 * usize::from(query[1]).min(6);
        query[counted..].copy_from_slice(&behind[counted - 2..]);
        (query, *answer)
    };
    kinds.iter().map(with).unzip()
}

#[test]
fn any_byte_may_stand_there() {
    for noise in 0..=255 {
        let (queries, answers) = with_behind(&kinds(), [noise; 12]);
        expect(&shop(), &queries, &answers);
    }
}

/// One byte alone differs, at each place behind the entries.
#[test]
fn at_every_place() {
    let mut queries = Vec::new();
    for (query, answer) in kinds() {
        let counted = 2 + 2 * usize::from(query[1]).min(6);
        for place in counted..QUERY {
            for value in [0, 1, 2, 3, 4, 8, 128, 255] {
                let mut query = query;
                query[counted..].fill(0);
                query[place] = value;
                queries.push((query, answer));
            }
        }
    }
    for part in queries.chunks(1_024) {
        let (queries, answers): (Vec<Query>, Vec<u8>) = part.iter().copied().unzip();
        expect(&shop(), &queries, &answers);
    }
}

/// Each would change the answer if it counted.
#[test]
fn entries_that_would_change_the_answer() {
    for (behind, counted) in [
        (BUYER, 0),
        (CLERK, 16),
        (OTHER_CLERK, 24),
        ([2, 1], 15),
        ([0, 1], 14),
        (MANAGER, 14),
        ([4, 2], 13),
        ([1, 3], 13),
    ] {
        let mut query = query(0, &[MANAGER], NOISE);
        query[4..6].copy_from_slice(&behind);
        expect(&shop(), &[query], &[17]);
        expect(&shop(), &[counting(2, query)], &[counted]);
        expect(&shop(), &[query, counting(2, query)], &[17, counted]);
        query[4..].copy_from_slice(&[behind; 5].concat());
        expect(&shop(), &[query], &[17]);
    }
}

/// The same group with other noise is the same question.
#[test]
fn a_granted_group_stays_granted() {
    for behind in [
        MANAGER,
        BUYER,
        CLERK,
        OTHER_CLERK,
        [4, 2],
        [1, 3],
        [0, 1],
        [2, 1],
    ] {
        let mut query = query(0, &[MANAGER, BUYER], NOISE);
        for place in [6, 8, 10, 12] {
            query[place..][..2].copy_from_slice(&behind);
            expect(&shop(), &[query], &[0]);
            expect(&shop(), &[query, about(0, &[MANAGER])], &[0, 17]);
        }
    }
}
