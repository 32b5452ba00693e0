//! Bases whose tables are empty, at their limits or used to their ends.

use crate::setups::*;
use compare::batches::{agreed_batch, expect_batch, query, Batch, Query, MOST_QUERIES};
use compare::builder::*;
use compare::lent::Lent;
use compare::lively::full_base;
use compare::queries::batch_for;
use compare::questions::{at_minute, random_question};
use compare::random::Random;
use model::Base;

/// No permission, no user, one role.
#[test]
fn the_shortest_base_answers_10() {
    let base = BaseBuilder::new(1).bytes();
    assert_eq!(base.len(), 36);
    for count in 0..=7 {
        let queries = [counting(count, query(0, &[[0, 0]], 0)); 3];
        let batch = Batch::new(at_minute(0), &queries);
        expect_batch(&base, &batch, 3, 0, &[10; 3]);
    }
    expect_batch(&base, &Batch::new(at_minute(0), &[]), 0, 0, &[]);
}

/// The last user of 24 in the last role of eight, for the last permission of 16, by
/// the last policy of 64 and the last clause of 64.
#[test]
fn the_last_of_every_table() {
    let mut base = BaseBuilder {
        users: vec![User::always(23); 24],
        group_clauses: vec![GroupClause::new(0, &[(0, 0, 6)]); 64],
        policies: vec![Policy::new(0, 0, 1, 0, NO_CONTEXT); 64],
        ..BaseBuilder::new(8).with_permissions(16)
    };
    base.group_clauses[63] = GroupClause::new(15, &[(1, 4, 5)]);
    base.policies[63] = Policy::new(7, 15, 5, 0, NO_CONTEXT);
    let queries = [
        query(15, &[[23, 7]], 0),
        query(15, &[[24, 7]], 0),
        query(15, &[[23, 8]], 0),
        query(16, &[[23, 7]], 0),
        query(14, &[[23, 7]], 0),
        query(15, &[[23, 6]], 0),
        query(15, &[[23, 7], [22, 7]], 0),
    ];
    expect(&base, &queries, &[0, 13, 13, 10, 16, 15, 17]);
    for (query, answer) in queries.into_iter().zip([0, 13, 13, 10, 16, 15, 17]) {
        expect(&base, &[query], &[answer]);
    }
}

/// Bases of 2,460 bytes, each with as many queries as can be.
#[test]
fn full_bases_with_1024_queries() {
    let mut random = Random::new(354);
    let mut seen = [0; 25];
    for _ in 0..12 {
        let records = full_base(&mut random);
        let bytes = records.bytes();
        assert_eq!(bytes.len(), 2_460);
        let base = Base::read(&bytes).expect("a full base passes");
        let mut asked = random_question(&mut random, &records, &base);
        asked.at = at_minute(600);
        let mut queries: Vec<Query> = Vec::new();
        while queries.len() < MOST_QUERIES {
            queries.extend(batch_for(&mut random, &base, &asked).queries());
        }
        let batch = Batch::new(asked.at, &queries[..MOST_QUERIES]);
        let mut lent = Lent::noisy(&mut random, MOST_QUERIES + 8);
        assert_eq!(agreed_batch(&bytes, &batch, &mut lent), 0);
        let found = &lent.buffer()[..MOST_QUERIES];
        found
            .iter()
            .for_each(|answer| seen[usize::from(*answer)] += 1);
    }
    let answers = [0, 10, 12, 13, 14, 15, 24, 16, 17];
    assert!(answers.iter().all(|answer| seen[*answer] > 20), "{seen:?}");
}
