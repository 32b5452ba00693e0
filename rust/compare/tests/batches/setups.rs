//! The base that the edges start from, queries about it, and how to ask them.

use compare::batches::{expect_batch, query, Batch, Query};
use compare::builder::*;
use compare::questions::{at_minute, SOME_DATE};
use compare::shop::small_shop;

/// The small shop's users in the roles they hold.
pub const MANAGER: [u8; 2] = [0, 0];
pub const BUYER: [u8; 2] = [1, 1];
pub const CLERK: [u8; 2] = [2, 2];
pub const OTHER_CLERK: [u8; 2] = [3, 2];

/// What stands behind the entries that count, where nothing else is said: no user's
/// number and no role's.
pub const NOISE: u8 = 201;

/// The query about a permission and these entries.
pub fn about(permission: u8, entries: &[[u8; 2]]) -> Query {
    query(permission, entries, NOISE)
}

/// The same with another count.
pub fn counting(count: u8, query: Query) -> Query {
    let mut query = query;
    query[1] = count;
    query
}

/// The small shop with a second permission, for which the buyer's role alone has
/// weight and every group passes; and the days of user 3, a clerk, are over. Early,
/// at minute 480, the roles weigh 4, 1 and 0 for permission 0.
pub fn shop() -> BaseBuilder {
    let mut shop = small_shop().with_permissions(2);
    shop.group_clauses.push(GroupClause::new(1, &[(0, 2, 1)]));
    shop.policies.push(Policy::new(1, 1, 2, 0, NO_CONTEXT));
    shop.users[3].set_days(0, SOME_DATE as u16 - 1);
    shop
}

/// A query for each way to its answer, early.
pub fn kinds() -> Vec<(Query, u8)> {
    let pair = [MANAGER, BUYER];
    vec![
        (about(0, &pair), 0),
        (about(0, &[MANAGER]), 17),
        (about(0, &[MANAGER, CLERK]), 16),
        (about(0, &[CLERK]), 16),
        (about(0, &[MANAGER, OTHER_CLERK]), 24),
        (about(0, &[MANAGER, [2, 1]]), 15),
        (about(0, &[MANAGER, [0, 1]]), 14),
        (about(0, &[MANAGER, [4, 2]]), 13),
        (about(0, &[MANAGER, [1, 3]]), 13),
        (counting(0, about(0, &pair)), 12),
        (counting(7, about(0, &pair)), 12),
        (counting(255, about(0, &pair)), 12),
        (about(2, &pair), 10),
        (counting(0, about(2, &pair)), 10),
        (about(255, &pair), 10),
        (about(1, &[BUYER]), 0),
        (about(1, &[[0, 1], BUYER]), 0),
        (about(1, &[MANAGER]), 16),
        (about(1, &pair), 16),
        (about(1, &[OTHER_CLERK]), 24),
        (counting(0, about(1, &pair)), 12),
    ]
}

/// Expects these answers of a base at a minute, with buffers that are just long
/// enough and longer.
pub fn expect_at(minute: u32, base: &BaseBuilder, queries: &[Query], answers: &[u8]) {
    let batch = Batch::new(at_minute(minute), queries);
    for more in [0, 1, 40] {
        let room = answers.len() + more;
        expect_batch(&base.bytes(), &batch, room, 0, answers);
    }
}

/// The same early.
pub fn expect(base: &BaseBuilder, queries: &[Query], answers: &[u8]) {
    expect_at(480, base, queries, answers);
}

/// Expects this refusal early of the shop, for queries of any bytes, and that no byte
/// is written.
pub fn expect_refused(queries: &[u8], room: usize, refusal: u8) {
    let batch = Batch {
        at: at_minute(480),
        queries: queries.to_vec(),
    };
    expect_batch(&shop().bytes(), &batch, room, refusal, &[]);
}

/// So many queries, of all kinds in turn, with their answers.
pub fn of_all_kinds(count: usize) -> (Vec<Query>, Vec<u8>) {
    kinds().into_iter().cycle().take(count).unzip()
}
