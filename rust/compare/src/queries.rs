//! Random batches of queries about a base.

use model::{Base, Context, Question, Reading};

use crate::batches::{Batch, Query, MOST_QUERIES, QUERY};
use crate::questions::{any_group, any_number, loose_group, random_entry, Asked};
use crate::random::Random;

/// A batch in a question's context, with the question itself among its queries if it
/// has one or more: all about its permission, or about any.
pub fn batch_for(random: &mut Random, base: &Base, asked: &Asked) -> Batch {
    let mut choices = vec![query_of(random, base, asked.permission as u8, &asked.group)];
    let alike = random.chance(3);
    for _ in 0..random.pick(&[0, 2, 4, 8]) {
        let permission = match alike {
            true => asked.permission,
            false => any_number(random, base.permissions.len()),
        };
        let group = group_for(random, base, permission, asked.at);
        choices.push(query_of(random, base, permission as u8, &group));
    }
    let mut queries = Vec::new();
    for place in 0..any_count(random) {
        let mut query = match place {
            0 => choices[0],
            _ => random.pick(&choices),
        };
        if place > 0 && random.chance(3) {
            vary(random, base, alike, &mut query);
        }
        queries.push(query);
    }
    random.shuffle(&mut queries);
    spoil_length(random, Batch::new(asked.at, &queries))
}

/// A group made for the question, if there is one.
fn group_for(random: &mut Random, base: &Base, permission: u32, at: Context) -> Vec<u8> {
    match Question::new(base, permission, at, Reading::Paper) {
        Ok(question) => any_group(random, &question),
        Err(_) => loose_group(random),
    }
}

/// How many queries: mostly few, at times near the most or above.
fn any_count(random: &mut Random) -> usize {
    let few = 3 + random.below(20);
    match random.below(150) {
        0 => random.pick(&[
            MOST_QUERIES - 1,
            MOST_QUERIES,
            MOST_QUERIES,
            MOST_QUERIES + 1,
            MOST_QUERIES + 2,
        ]),
        _ => random.pick(&[0, 1, 1, 1, 2, 2, 3, few, few, few]),
    }
}

/// The query of a group, of a long one the first entries, with noise behind them. It
/// counts them all.
fn query_of(random: &mut Random, base: &Base, permission: u8, group: &[u8]) -> Query {
    let mut query = [permission; QUERY];
    query[1] = (group.len() / 2).min(255) as u8;
    let entries = group.chunks_exact(2).take(6);
    for (place, entry) in entries.enumerate() {
        query[2 + 2 * place..][..2].copy_from_slice(entry);
    }
    noise_behind(random, base, &mut query);
    query
}

/// Fills the entries that don't count: with any bytes, with entries of users and
/// roles that are there, or with the first entry again.
fn noise_behind(random: &mut Random, base: &Base, query: &mut Query) {
    let kind = random.below(3);
    let first = [query[2], query[3]];
    let counted = usize::from(query[1]).min(6);
    let behind = query[2..].chunks_exact_mut(2).skip(counted);
    for entry in behind {
        let noise = match kind {
            0 => [random.byte(), random.byte()],
            1 => random_entry(random, base),
            _ => first,
        };
        entry.copy_from_slice(&noise);
    }
}

/// Gives a query other noise, another count or, unless all are alike, another
/// permission.
fn vary(random: &mut Random, base: &Base, alike: bool, query: &mut Query) {
    match random.below(6) {
        0 => {
            let any = random.byte();
            query[1] = random.pick(&[0, 1, 2, 5, 6, 7, 255, any, any, any, any]);
        }
        1 | 2 if !alike => query[0] = any_number(random, base.permissions.len()) as u8,
        _ => noise_behind(random, base, query),
    }
}

/// At times another length, mostly one that is no whole number of queries.
fn spoil_length(random: &mut Random, mut batch: Batch) -> Batch {
    if random.chance(12) {
        let whole = batch.queries.len();
        let off = 1 + random.below(QUERY);
        let most = QUERY * MOST_QUERIES;
        let length = random.pick(&[
            whole + off,
            whole.saturating_sub(off),
            whole + 1,
            whole.saturating_sub(1),
            most + 1,
            most + QUERY,
        ]);
        batch.queries.resize(length, 0);
    }
    batch
}

/// A batch of any bytes, small numbers or any.
pub fn loose_batch(random: &mut Random, at: Context) -> Batch {
    let any = random.below(100);
    let length = random.pick(&[0, QUERY, 2 * QUERY, 5 * QUERY, any]);
    let last = random.pick(&[1, 3, 8, 255]);
    let queries = (0..length).map(|_| random.between(0, last)).collect();
    Batch { at, queries }
}

/// Mostly room for a batch's answers.
pub fn any_room(random: &mut Random, batch: &Batch) -> usize {
    let count = batch.queries.len() / QUERY;
    if random.chance(12) {
        random.pick(&[count.saturating_sub(1), 0, count / 2])
    } else {
        count + random.pick(&[0, 0, 1, 40])
    }
}

#[cfg(test)]
mod tests {
    use super::*;
    use crate::cases;
    use crate::lent::Lent;

    /// Batches for questions to lively bases, ten each, with a buffer.
    fn batches(seed: u64, bases: usize, mut attempt: impl FnMut(&[u8], &Batch, Lent)) {
        let mut random = Random::new(seed);
        cases::lively_bases(seed, bases, |bytes, asked| {
            let base = Base::read(bytes).expect("a lively base passes");
            let batch = batch_for(&mut random, &base, asked);
            let room = any_room(&mut random, &batch);
            attempt(bytes, &batch, Lent::noisy(&mut random, room));
        });
    }

    #[test]
    fn every_answer_comes_up_often() {
        let mut calls = [0; 29];
        let mut queries = [0; 29];
        batches(341, 300, |base, batch, mut lent| {
            let answer = batch.by_model(Reading::Paper, base, lent.buffer());
            calls[usize::from(answer)] += 1;
            if answer == 0 {
                let found = lent.buffer()[..batch.queries().len()].iter();
                found.for_each(|answer| queries[usize::from(*answer)] += 1);
            }
        });
        for (answer, times) in calls.into_iter().enumerate() {
            match answer {
                0 | 11 | 28 => assert!(times >= 150, "{calls:?}"),
                _ => assert_eq!(times, 0, "{calls:?}"),
            }
        }
        for (answer, times) in queries.into_iter().enumerate() {
            match answer {
                0 | 10 | 12..=17 | 24 => assert!(times >= 200, "{queries:?}"),
                _ => assert_eq!(times, 0, "{queries:?}"),
            }
        }
    }

    #[test]
    fn every_wrong_reading_comes_up() {
        for reading in Reading::WRONG_OF_BATCHES {
            let mut found = 0;
            batches(342, 300, |base, batch, lent| {
                let by = |reading| {
                    let mut lent = lent.clone();
                    let answer = batch.by_model(reading, base, lent.buffer());
                    (answer, lent.buffer().to_vec())
                };
                found += usize::from(by(reading) != by(Reading::Paper));
            });
            println!("{reading:?}: {found} batches");
            assert!(found >= 5, "{reading:?}");
        }
    }
}
