//! A query gets one answer, alone or among any others, however often it is asked.

use crate::setups::*;
use compare::batches::{agreed_batch, Batch, Query};
use compare::lent::Lent;
use compare::lively::{full_base, lively_base};
use compare::queries::batch_for;
use compare::questions::random_question;
use compare::random::Random;
use model::Base;

/// Before and behind each other one.
#[test]
fn in_every_batch_of_two() {
    for (first, one) in kinds() {
        for (second, other) in kinds() {
            expect(&shop(), &[first, second], &[one, other]);
        }
    }
}

#[test]
fn many_times_with_others_between() {
    for (first, one) in kinds() {
        for (second, other) in kinds() {
            let queries = [first, first, second, first, second, second, first];
            let answers = [one, one, other, one, other, other, one];
            expect(&shop(), &queries, &answers);
        }
    }
}

/// The last of 1,024 alone is another query, and then the first.
#[test]
fn among_as_many_as_can_be() {
    let (most, answer) = kinds()[0];
    for (query, other) in kinds() {
        for place in [0, 1, 511, 1_022, 1_023] {
            let (mut queries, mut answers) = ([most; 1_024], [answer; 1_024]);
            (queries[place], answers[place]) = (query, other);
            expect(&shop(), &queries, &answers);
        }
    }
}

/// The library's answers to queries about a base.
fn answers(base: &[u8], batch: &Batch) -> Vec<u8> {
    let count = batch.queries().len();
    let mut lent = Lent::noisy(&mut Random::new(352), count);
    assert_eq!(agreed_batch(base, batch, &mut lent), 0);
    lent.buffer().to_vec()
}

/// The queries sorted by permission, which are alike one behind the other, then each
/// permission's in a batch of their own; and the answers as they come in any order.
fn expect_same_in_any_order(random: &mut Random, base: &[u8], batch: &Batch) {
    let found = answers(base, batch);
    let mut pairs: Vec<(Query, u8)> = batch.queries().iter().copied().zip(found).collect();
    let expect_pairs = |pairs: &[(Query, u8)]| {
        let (queries, expected): (Vec<Query>, Vec<u8>) = pairs.iter().copied().unzip();
        assert_eq!(answers(base, &Batch::new(batch.at, &queries)), expected);
    };
    random.shuffle(&mut pairs);
    expect_pairs(&pairs);
    pairs.sort_by_key(|(query, _)| query[0]);
    expect_pairs(&pairs);
    let alike = pairs.chunk_by(|(one, _), (other, _)| one[0] == other[0]);
    alike.for_each(expect_pairs);
}

#[test]
fn in_random_batches_mixed_and_by_permission() {
    let mut random = Random::new(353);
    let (mut mixed, mut alike) = (0, 0);
    for turn in 0..600 {
        let records = match turn % 10 {
            0 => full_base(&mut random),
            _ => lively_base(&mut random, 12),
        };
        let base = Base::read(&records.bytes()).expect("the base passes");
        let asked = random_question(&mut random, &records, &base);
        let batch = batch_for(&mut random, &base, &asked);
        let whole = batch.queries.len() == 14 * batch.queries().len();
        if !batch.at.in_range() || !whole || batch.queries().len() > 1_024 {
            continue;
        }
        expect_same_in_any_order(&mut random, &records.bytes(), &batch);
        let mut permissions: Vec<u8> = batch.queries().iter().map(|query| query[0]).collect();
        permissions.dedup();
        match (permissions.len(), batch.queries().len()) {
            (2.., _) => mixed += 1,
            (1, 2..) => alike += 1,
            _ => (),
        }
    }
    assert!(mixed > 100 && alike > 100, "{mixed} mixed, {alike} alike");
}
