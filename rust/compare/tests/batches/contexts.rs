//! The context: one for all queries, in range or the batch is refused.

use crate::setups::*;
use compare::batches::{expect_batch, Batch, Query};
use compare::questions::{at_date, at_minute, SOME_DATE};
use compare::shop::small_shop;
use model::Context;

/// Contexts with one number out of range, also such as would be in range if they
/// were cut.
fn out_of_range() -> Vec<Context> {
    let at = at_minute(480);
    let minutes = [1_440, 1_441, 65_536 + 480, u32::MAX].map(at_minute);
    let days = [7, 8, 256, u32::MAX].map(|day| Context { day, ..at });
    let zones = [256, 257, 65_536, u32::MAX].map(|zone| Context { zone, ..at });
    let dates = [65_536, 65_536 + SOME_DATE, u32::MAX].map(|date| Context { date, ..at });
    let all = minutes.into_iter().chain(days).chain(zones).chain(dates);
    all.collect()
}

#[test]
fn out_of_range_it_refuses_the_batch() {
    let (queries, _) = of_all_kinds(21);
    for at in out_of_range() {
        for queries in [&queries[..], &queries[..1], &queries[12..13]] {
            let batch = Batch::new(at, queries);
            for room in [0, 1, 20, 21, 22] {
                expect_batch(&shop().bytes(), &batch, room, 11, &[]);
            }
        }
    }
}

#[test]
fn even_where_there_is_no_query() {
    for at in out_of_range() {
        for room in [0, 1, 30] {
            expect_batch(&shop().bytes(), &Batch::new(at, &[]), room, 11, &[]);
        }
    }
    let in_range = Context {
        minute: 1439,
        day: 6,
        zone: 255,
        date: 65_535,
    };
    for room in [0, 1, 30] {
        expect_batch(&shop().bytes(), &Batch::new(in_range, &[]), room, 0, &[]);
    }
}

/// The clerks' context is minute 540 to 1020; by day the roles weigh 5, 2 and 1.
#[test]
fn the_minute_counts_for_every_query() {
    let queries = [
        about(0, &[MANAGER, CLERK]),
        about(0, &[BUYER, CLERK]),
        about(0, &[CLERK]),
        about(0, &[MANAGER, BUYER]),
    ];
    for minute in [539, 1021, 0, 1439] {
        expect_at(minute, &small_shop(), &queries, &[16, 16, 16, 0]);
    }
    for minute in [540, 1020, 600] {
        expect_at(minute, &small_shop(), &queries, &[0, 17, 17, 0]);
    }
}

/// Expects these answers on a date.
fn expect_on(date: u32, queries: &[Query], answers: &[u8]) {
    let mut shop = small_shop();
    shop.users[0].set_days(300, 310);
    shop.users[2].set_days(305, 305);
    let batch = Batch::new(at_date(600, date), queries);
    expect_batch(&shop.bytes(), &batch, queries.len(), 0, answers);
}

/// The manager is there from 300 to 310, a clerk on 305.
#[test]
fn both_days_of_every_user_are_included() {
    let queries = [
        about(0, &[MANAGER, CLERK]),
        about(0, &[MANAGER, OTHER_CLERK]),
        about(0, &[BUYER, CLERK, OTHER_CLERK]),
        about(0, &[[0, 2], [1, 2]]),
    ];
    for date in [0, 299, 311, 65_535] {
        expect_on(date, &queries, &[24, 24, 24, 24]);
    }
    for date in [300, 304, 306, 310] {
        expect_on(date, &queries, &[24, 0, 24, 17]);
    }
    expect_on(305, &queries, &[0, 0, 17, 17]);
}
