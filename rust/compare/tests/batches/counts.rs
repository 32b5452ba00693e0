//! How many queries there are, and of how many bytes.

use crate::setups::*;
use compare::batches::{expect_batch, Batch, MOST_QUERIES, QUERY};
use compare::questions::at_minute;

#[test]
fn no_query_is_done() {
    for room in [0, 1, 14, 1_024, 1_025] {
        expect_refused(&[], room, 0);
    }
}

/// Up to four queries and more of them are answered in two ways.
#[test]
fn one_query_to_seven() {
    for (query, answer) in kinds() {
        for count in 1..=7 {
            expect(&shop(), &vec![query; count], &vec![answer; count]);
        }
    }
}

#[test]
fn up_to_1024_queries_are_answered() {
    for count in [1, 2, 3, 4, 5, 6, 21, 22, 255, 256, 257, 1_022, 1_023, 1_024] {
        let (queries, answers) = of_all_kinds(count);
        expect(&shop(), &queries, &answers);
    }
}

/// All of one kind, of each kind: nothing but the place of an answer differs.
#[test]
fn as_many_alike() {
    for (query, answer) in kinds() {
        expect(&shop(), &[query; MOST_QUERIES], &[answer; MOST_QUERIES]);
    }
}

/// 65,537 would be 1 if their number were cut to two bytes.
#[test]
fn more_than_1024_get_28() {
    for count in [1_025, 1_026, 1_280, 2_048, 4_096, 65_536, 65_537] {
        let (queries, _) = of_all_kinds(count);
        let queries = queries.concat();
        for room in [0, 1, 1_024, count - 1, count, count + 1] {
            expect_refused(&queries, room, 28);
        }
    }
}

#[test]
fn other_lengths_get_28() {
    let (queries, answers) = of_all_kinds(6);
    let queries = queries.concat();
    for length in 0..=6 * QUERY {
        let (count, over) = (length / QUERY, length % QUERY);
        match over {
            0 => {
                let batch = Batch {
                    at: at_minute(480),
                    queries: queries[..length].to_vec(),
                };
                expect_batch(&shop().bytes(), &batch, 9, 0, &answers[..count]);
            }
            _ => expect_refused(&queries[..length], 9, 28),
        }
    }
}

#[test]
fn lengths_beside_the_most_get_28() {
    let (queries, _) = of_all_kinds(1_026);
    let queries = queries.concat();
    let longest = QUERY * MOST_QUERIES;
    for off in 1..QUERY {
        expect_refused(&queries[..longest - off], 1_024, 28);
        expect_refused(&queries[..longest + off], 1_025, 28);
    }
    expect_refused(&queries[..longest + QUERY], 1_025, 28);
    expect_refused(&queries[..longest + QUERY + 1], 1_026, 28);
    expect_refused(&queries[..longest - QUERY + 1], 1_024, 28);
}
