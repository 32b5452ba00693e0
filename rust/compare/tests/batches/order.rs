//! The order of refusals: 1 to 9, 11 and 28 for the call; 10, 12 to 15, 24, 16 and
//! 17 for a query.

use crate::setups::*;
use compare::batches::{expect_batch, query, Batch, QUERY};
use compare::builder::*;
use compare::questions::at_minute;
use compare::shop::{refused_bases, small_shop};

/// Queries that 28 refuses with room for two, three of them by their length.
fn unfit() -> [Vec<u8>; 5] {
    let two = [query(0, &[MANAGER], 0); 2].concat();
    [
        two[..27].to_vec(),
        two[..13].to_vec(),
        [&two[..], &[0]].concat(),
        [two.clone(), two.clone()].concat(),
        two.repeat(1_025),
    ]
}

fn expect_call(base: &[u8], minute: u32, queries: &[u8], answer: u8) {
    let batch = Batch {
        at: at_minute(minute),
        queries: queries.to_vec(),
    };
    expect_batch(base, &batch, 2, answer, &[]);
}

/// With every other fault of the call there is, and with none.
#[test]
fn refusals_1_to_9_beat_11_and_28() {
    let granted = about(0, &[MANAGER, BUYER]);
    for (refusal, base) in (1..).zip(refused_bases()) {
        for queries in unfit() {
            expect_call(&base, 1440, &queries, refusal);
            expect_call(&base, 480, &queries, refusal);
        }
        for minute in [480, 1440] {
            expect_call(&base, minute, &granted, refusal);
            expect_call(&base, minute, &[], refusal);
        }
    }
}

#[test]
fn refusal_11_beats_28() {
    let base = small_shop().bytes();
    for queries in unfit() {
        expect_call(&base, 1440, &queries, 11);
        expect_call(&base, 1439, &queries, 28);
    }
}

/// And no query's answer depends on a query behind it.
#[test]
fn refusals_of_a_query_refuse_no_batch() {
    let (queries, answers) = of_all_kinds(21);
    for place in 0..21 {
        let mut turned = queries.clone();
        turned.rotate_left(place);
        let mut expected = answers.clone();
        expected.rotate_left(place);
        expect(&shop(), &turned, &expected);
    }
}

#[test]
fn refusal_10_beats_12() {
    for permission in [2, 3, 15, 16, 17, 128, 255] {
        let queries = [0, 1, 2, 6, 7, 8, 255].map(|count| {
            let query = about(permission, &[MANAGER, BUYER]);
            counting(count, query)
        });
        expect(&shop(), &queries, &[10; 7]);
        for query in queries {
            expect(&shop(), &[query], &[10]);
            expect(&shop(), &[query, about(0, &[MANAGER])], &[10, 17]);
        }
    }
}

#[test]
fn of_no_permissions_each_query_gets_10() {
    let mut shop = small_shop().with_permissions(0);
    shop.group_clauses.clear();
    shop.policies.clear();
    for count in 0..=8 {
        let query = counting(count, about(0, &[MANAGER, BUYER]));
        expect(&shop, &[query], &[10]);
        expect(&shop, &[query; 3], &[10; 3]);
    }
}

/// The faults one by one, each over all entries before the next.
#[test]
fn with_all_faults_the_first_is_named_and_then_the_next() {
    let entries = [MANAGER, CLERK, OTHER_CLERK, [2, 0], MANAGER, [4, 2]];
    let query = about(0, &entries);
    let queries = [
        counting(7, about(2, &entries)),
        counting(7, query),
        query,
        counting(5, query),
        counting(4, about(0, &[MANAGER, [1, 2], OTHER_CLERK, [2, 0]])),
        counting(3, query),
        counting(2, query),
        counting(1, query),
    ];
    expect(&shop(), &queries, &[10, 12, 13, 14, 15, 24, 16, 17]);
}

/// Two faults in two entries, either of them first.
#[test]
fn a_later_fault_in_an_earlier_entry() {
    let faults = [([4, 2], 13), ([2, 1], 15), (OTHER_CLERK, 24), (CLERK, 16)];
    for (first, one) in faults {
        for (second, other) in faults {
            if first[0] == second[0] {
                continue;
            }
            let rank = |answer| [13, 14, 15, 24, 16, 17].iter().position(|a| *a == answer);
            let answer = if rank(one) < rank(other) { one } else { other };
            expect(&shop(), &[about(0, &[first, second])], &[answer]);
            let queries = [about(0, &[second, first]), about(1, &[BUYER])];
            expect(&shop(), &queries, &[answer, 0]);
        }
    }
}

/// A record that plays no part in a query still refuses the base.
#[test]
fn a_base_is_checked_to_its_end() {
    let mut shop = shop();
    let (kind, a, b) = (0, 0, 3);
    shop.exclusions = vec![Exclusion { kind, a, b }];
    let batch = Batch::new(at_minute(480), &[about(0, &[MANAGER, BUYER])]);
    expect_batch(&shop.bytes(), &batch, 1, 9, &[]);
    shop.exclusions[0].b = 2;
    expect_batch(&shop.bytes(), &batch, 1, 0, &[0]);
    assert_eq!(batch.queries.len(), QUERY);
}
