//! The lent buffer: how long it has to be, and which bytes it gets.

use crate::setups::*;
use compare::batches::{expect_batch, Batch};
use compare::lent::Lent;
use compare::questions::at_minute;
use compare::random::Random;

/// Expects 28 with each of these rooms, and answers with room for them.
fn expect_rooms(count: usize, shorter: &[usize], longer: &[usize]) {
    let (queries, answers) = of_all_kinds(count);
    for room in shorter {
        expect_refused(&queries.concat(), *room, 28);
    }
    let batch = Batch::new(at_minute(480), &queries);
    for room in longer {
        expect_batch(&shop().bytes(), &batch, *room, 0, &answers);
    }
}

#[test]
fn every_shorter_buffer_gets_28_and_no_byte() {
    for count in 1..=30 {
        let shorter: Vec<usize> = (0..count).collect();
        expect_rooms(count, &shorter, &[]);
    }
}

#[test]
fn one_byte_less_than_the_queries_gets_28() {
    for count in [1, 2, 255, 256, 257, 1_023, 1_024] {
        expect_rooms(count, &[count - 1], &[count, count + 1]);
    }
}

#[test]
fn later_bytes_keep_their_contents() {
    for count in [1, 2, 21, 1_024] {
        let longer = [count, count + 1, count + 14, 14 * count, 2_000, 70_000];
        expect_rooms(count, &[], &longer);
    }
}

/// Whatever the byte was before, also the answer itself.
#[test]
fn each_answer_is_written_over_any_byte() {
    let (queries, answers) = of_all_kinds(21);
    let batch = Batch::new(at_minute(480), &queries);
    for before in 0..=255 {
        let mut buffer = [before; 22];
        assert_eq!(batch.by_library(&shop().bytes(), &mut buffer), 0);
        assert_eq!((&buffer[..21], buffer[21]), (&answers[..], before));
    }
}

/// The buffer starts at each place of a word.
#[test]
fn a_buffer_may_start_anywhere() {
    let (queries, answers) = of_all_kinds(40);
    let batch = Batch::new(at_minute(480), &queries);
    for start in 0..16 {
        let mut lent = Lent::noisy(&mut Random::new(7), 64);
        let mut expected = lent.clone();
        expected.buffer()[start..][..40].copy_from_slice(&answers);
        let part = &mut lent.buffer()[start..][..40];
        assert_eq!(batch.by_library(&shop().bytes(), part), 0);
        assert_eq!(lent.first_difference(&expected), None);
    }
}

/// What refuses each call with a buffer that suffices.
#[test]
fn no_refusal_writes() {
    let (queries, _) = of_all_kinds(21);
    let bytes = shop().bytes();
    for room in [21, 22, 60] {
        let batch = Batch::new(at_minute(480), &queries);
        expect_batch(&bytes[1..], &batch, room, 3, &[]);
        let out_of_range = Batch::new(at_minute(1440), &queries);
        expect_batch(&bytes, &out_of_range, room, 11, &[]);
        let queries = [&batch.queries[..], &[0]].concat();
        expect_refused(&queries, room, 28);
    }
}
