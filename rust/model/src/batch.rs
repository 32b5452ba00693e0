//! A refresh: many queries about one base in one context, each answered in a byte.

use crate::base::Base;
use crate::context::Context;
use crate::decision::Question;
use crate::group::MOST_ENTRIES;
use crate::reading::Reading;
use crate::refusal::{number, refuse_if, Refusal};

/// Bytes of a query: its permission, how many of its six entries count, and these.
const QUERY: usize = 14;

/// The most queries of a batch.
const MOST_QUERIES: usize = 1_024;

/// 0, and the answer to each query in a byte, in order: that of
/// [`decide`](crate::decide) for the query alone. Later bytes keep their contents.
/// Or the first of refusals 1 to 9, 11 and 28 that applies, and no byte is written.
pub fn batch(base: &[u8], at: Context, queries: &[u8], answers: &mut [u8]) -> u8 {
    batch_as(Reading::Paper, base, at, queries, answers)
}

/// The same by this reading.
pub fn batch_as(
    reading: Reading,
    base: &[u8],
    at: Context,
    queries: &[u8],
    answers: &mut [u8],
) -> u8 {
    let found = answers_to(reading, base, at, queries, answers.len());
    if let Ok(found) = &found {
        let (to_queries, later) = answers.split_at_mut(found.len());
        to_queries.copy_from_slice(found);
        if reading == Reading::LaterCleared {
            later.fill(0);
        }
    }
    number(found)
}

/// The answers to the queries, where the buffer has room for so many.
fn answers_to(
    reading: Reading,
    base: &[u8],
    at: Context,
    queries: &[u8],
    room: usize,
) -> Result<Vec<u8>, Refusal> {
    let base = Base::read_as(reading, base)?;
    let whole = queries.len().is_multiple_of(QUERY);
    let count = queries.len() / QUERY;
    let fit = whole && count <= MOST_QUERIES && count <= room;
    if reading == Reading::QueriesBeforeContext {
        refuse_if(!fit, Refusal::Queries)?;
    }
    refuse_if(!at.in_range(), Refusal::Context)?;
    refuse_if(!fit, Refusal::Queries)?;
    let queries = queries.chunks_exact(QUERY);
    Ok(queries
        .map(|query| number(ask(reading, &base, at, query)))
        .collect())
}

/// The first decision for one query.
fn ask(reading: Reading, base: &Base, at: Context, query: &[u8]) -> Result<(), Refusal> {
    let group = group_of(reading, query);
    if reading == Reading::CountBeforePermission {
        refuse_if(group.is_empty(), Refusal::GroupLength)?;
    }
    let permission = query[0].into();
    Question::new(base, permission, at, reading)?.ask(group)
}

/// The bytes of the entries that count: none where the count is above six, so that
/// the group is refused as one of no entries is.
fn group_of(reading: Reading, query: &[u8]) -> &[u8] {
    let count = usize::from(query[1]);
    let entries = match (reading, count) {
        (Reading::CountCut, 7..) => MOST_ENTRIES,
        (Reading::UnusedRead, 1..=MOST_ENTRIES) => MOST_ENTRIES,
        (_, 0..=MOST_ENTRIES) => count,
        _ => 0,
    };
    &query[2..][..2 * entries]
}

#[cfg(test)]
mod tests {
    use super::*;
    use crate::decision::decide;
    use crate::samples::*;

    /// A query about a permission: so many entries count, and these stand first.
    /// Behind them is noise, which no user of a sample is.
    fn query(permission: u8, count: u8, entries: &[[u8; 2]]) -> Vec<u8> {
        let mut query = vec![permission, count];
        query.extend(entries.as_flattened());
        query.resize(QUERY, 201);
        query
    }

    /// The small shop's answer by a reading at a minute, and the buffer behind it.
    fn asked(reading: Reading, minute: u32, queries: &[u8], room: usize) -> (u8, Vec<u8>) {
        let mut answers = vec![77; room];
        let answer = batch_as(
            reading,
            &SMALL_SHOP,
            at_minute(minute),
            queries,
            &mut answers,
        );
        (answer, answers)
    }

    /// The small shop's answer to one query by a reading.
    fn one(reading: Reading, query: &[u8]) -> u8 {
        let (answer, answers) = asked(reading, 600, query, 1);
        assert_eq!(answer, 0);
        answers[0]
    }

    /// Expects this answer to one query, and another by these wrong readings alone.
    fn expect(query: &[u8], answer: u8, wrong: &[Reading]) {
        assert_eq!(one(Reading::Paper, query), answer);
        for reading in Reading::WRONG_OF_BATCHES {
            let differs = one(reading, query) != answer;
            assert_eq!(differs, wrong.contains(&reading), "{reading:?}");
        }
    }

    #[test]
    fn each_query_is_answered_in_its_byte() {
        let queries = [
            query(0, 2, &[MANAGER, CLERK]),
            query(0, 1, &[MANAGER]),
            query(1, 2, &[MANAGER, CLERK]),
            query(0, 3, &[OTHER_CLERK, MANAGER, [1, 2]]),
            query(0, 2, &[MANAGER, [2, 1]]),
        ];
        let expected = [0, 17, 10, 0, 15];
        let (answer, answers) = asked(Reading::Paper, 600, &queries.concat(), 5);
        assert_eq!((answer, &answers[..]), (0, &expected[..]));
        let early = [16, 17, 10, 16, 15];
        let (answer, answers) = asked(Reading::Paper, 480, &queries.concat(), 5);
        assert_eq!((answer, &answers[..]), (0, &early[..]));
    }

    #[test]
    fn a_count_of_0_or_above_six_answers_12() {
        let group = [MANAGER, CLERK];
        expect(&query(0, 0, &group), 12, &[]);
        for count in 7..=255 {
            expect(&query(0, count, &group), 12, &[Reading::CountCut]);
        }
        let (answer, answers) = asked(Reading::CountCut, 600, &query(0, 7, &group), 1);
        assert_eq!((answer, answers[0]), (0, 13));
    }

    #[test]
    fn a_permission_that_is_not_there_answers_10_before_12() {
        let group = [MANAGER, CLERK];
        for permission in [1, 2, 16, 255] {
            for count in [1, 2, 6] {
                expect(&query(permission, count, &group), 10, &[]);
            }
            for count in [0, 7, 128, 255] {
                let wrong = [Reading::CountBeforePermission];
                expect(&query(permission, count, &group), 10, &wrong);
            }
        }
    }

    #[test]
    fn entries_beyond_the_count_change_no_answer() {
        let wrong = [Reading::UnusedRead];
        expect(&query(0, 2, &[MANAGER, CLERK]), 0, &wrong);
        expect(&query(0, 2, &[MANAGER, CLERK, MANAGER]), 0, &wrong);
        expect(&query(0, 1, &[MANAGER, CLERK]), 17, &wrong);
        let six = [[3, 9], [9, 2], CLERK, CLERK, [0, 9], [2, 9]];
        expect(&query(0, 6, &six), 13, &[]);
        for noise in 0..=255 {
            let mut query = query(0, 2, &[MANAGER, CLERK]);
            query[6..].fill(noise);
            assert_eq!(one(Reading::Paper, &query), 0);
        }
    }

    #[test]
    fn later_bytes_keep_their_contents() {
        let queries = [query(0, 1, &[MANAGER]), query(0, 2, &[MANAGER, CLERK])].concat();
        for room in 2..20 {
            let (answer, answers) = asked(Reading::Paper, 600, &queries, room);
            assert_eq!((answer, &answers[..2]), (0, &[17, 0][..]));
            assert!(answers[2..].iter().all(|byte| *byte == 77));
            let (_, answers) = asked(Reading::LaterCleared, 600, &queries, room);
            assert!(answers[2..].iter().all(|byte| *byte == 0));
        }
    }

    /// The refusal, if nothing was written.
    fn refused(reading: Reading, minute: u32, queries: &[u8], room: usize) -> u8 {
        let (answer, answers) = asked(reading, minute, queries, room);
        assert!(answer == 0 || answers.iter().all(|byte| *byte == 77));
        answer
    }

    #[test]
    fn queries_are_whole() {
        let queries = query(0, 2, &[MANAGER, CLERK]).repeat(3);
        for length in 0..=42 {
            let answer = refused(Reading::Paper, 600, &queries[..length], 9);
            assert_eq!(answer, if length % 14 == 0 { 0 } else { 28 });
        }
    }

    #[test]
    fn there_are_at_most_1024_queries() {
        let queries = query(0, 2, &[MANAGER, CLERK]).repeat(1_025);
        let (answer, answers) = asked(Reading::Paper, 600, &queries[14..], 1_025);
        assert_eq!((answer, answers[1_023], answers[1_024]), (0, 0, 77));
        for room in [0, 1_024, 1_025, 2_000] {
            assert_eq!(refused(Reading::Paper, 600, &queries, room), 28);
        }
    }

    #[test]
    fn the_buffer_has_a_byte_for_each_query() {
        for count in 1..20 {
            let queries = query(0, 2, &[MANAGER, CLERK]).repeat(count);
            for room in 0..count {
                assert_eq!(refused(Reading::Paper, 600, &queries, room), 28);
            }
            assert_eq!(refused(Reading::Paper, 600, &queries, count), 0);
        }
    }

    #[test]
    fn no_query_is_done_with_any_buffer() {
        for room in [0, 1, 30] {
            let (answer, answers) = asked(Reading::Paper, 600, &[], room);
            assert_eq!((answer, answers), (0, vec![77; room]));
            assert_eq!(refused(Reading::Paper, 1440, &[], room), 11);
        }
    }

    #[test]
    fn a_context_out_of_range_is_refused_before_the_queries_are_looked_at() {
        let queries = query(1, 0, &[]);
        for (length, room) in [(14, 1), (13, 1), (14, 0), (0, 0)] {
            let queries = &queries[..length];
            assert_eq!(refused(Reading::Paper, 1440, queries, room), 11);
            let of_wrong = refused(Reading::QueriesBeforeContext, 1440, queries, room);
            let fit = length % 14 == 0 && length / 14 <= room;
            assert_eq!(of_wrong, if fit { 11 } else { 28 });
        }
    }

    #[test]
    fn a_refused_base_comes_first() {
        let mut answers = [77; 3];
        for (queries, at) in [(&[][..], 600), (&[0; 13], 600), (&[0; 14], 1440)] {
            let at = at_minute(at);
            assert_eq!(batch(&SMALL_SHOP[1..], at, queries, &mut answers), 3);
            assert_eq!(batch(&[], at, queries, &mut answers), 1);
        }
        assert_eq!(answers, [77; 3]);
    }

    /// The small shop with other roles for its users, and days that are over for
    /// some.
    fn random_shop(draws: &mut Draws) -> [u8; 130] {
        let mut shop = SMALL_SHOP;
        for user in shop[4..36].chunks_exact_mut(8) {
            user[0] = [3, 5, 7, 15, 21, 35, 105, 1][draws.below(8)];
            if draws.below(6) == 0 {
                user[6..].copy_from_slice(&(DATE - 1).to_le_bytes());
            }
        }
        shop
    }

    /// A query, mostly about a permission, users and roles that are there.
    fn random_query(draws: &mut Draws) -> Vec<u8> {
        let permission = draws.below(12) == 11;
        let count = [0, 1, 2, 2, 2, 3, 3, 4, 6, 7][draws.below(10)];
        let entries = [0; 6].map(|_: u8| [draws.byte(0, 3), draws.byte(0, 2)]);
        let mut query = query(permission.into(), count, &entries);
        if draws.below(8) == 0 {
            query[2 + draws.below(4)] += 3;
        }
        query
    }

    /// The first decision for a query alone, by the bytes of its base.
    fn decided(base: &[u8], at: Context, query: &[u8]) -> u8 {
        let end = 2 + 2 * usize::from(query[1]);
        decide(base, query[0].into(), at, query.get(2..end).unwrap_or(&[]))
    }

    #[test]
    fn each_answer_is_the_first_decisions() {
        let mut draws = Draws::new(10);
        let mut seen = [0; 25];
        for _ in 0..2_000 {
            let shop = random_shop(&mut draws);
            let queries: Vec<Vec<u8>> = (0..8).map(|_| random_query(&mut draws)).collect();
            let at = at_minute([480, 600][draws.below(2)]);
            let mut answers = [77; 8];
            assert_eq!(batch(&shop, at, &queries.concat(), &mut answers), 0);
            for (query, answer) in queries.iter().zip(answers) {
                assert_eq!(answer, decided(&shop, at, query));
                seen[usize::from(answer)] += 1;
            }
        }
        let mut all = [0, 10, 12, 13, 14, 15, 24, 16, 17].into_iter();
        assert!(all.all(|answer| seen[answer] > 50), "{seen:?}");
    }
}
