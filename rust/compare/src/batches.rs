//! Batches of queries, and the comparison of their answers: of each byte of the
//! buffer, and of each query with the decision and with a batch of that query alone.

use model::{Context, Reading};
use release::answers;

use crate::lent::Lent;
use crate::questions::Asked;
use crate::random::Random;
use crate::{hex, library_context, library_decision};

/// Bytes of a query: its permission, how many of its entries count, six entries.
pub const QUERY: usize = 14;

/// The most queries of a batch.
pub const MOST_QUERIES: usize = 1_024;

pub type Query = [u8; QUERY];

/// What a batch asks of a base: its queries may be any bytes.
#[derive(Clone, Debug)]
pub struct Batch {
    pub at: Context,
    pub queries: Vec<u8>,
}

impl Batch {
    pub fn new(at: Context, queries: &[Query]) -> Batch {
        let queries = queries.concat();
        Batch { at, queries }
    }

    pub fn by_library(&self, base: &[u8], buffer: &mut [u8]) -> u32 {
        answers::batch(base, library_context(self.at), &self.queries, buffer)
    }

    pub fn by_model(&self, reading: Reading, base: &[u8], buffer: &mut [u8]) -> u8 {
        model::batch_as(reading, base, self.at, &self.queries, buffer)
    }

    /// The whole queries, however many.
    pub fn queries(&self) -> &[Query] {
        let (queries, _) = self.queries.as_chunks();
        queries
    }
}

/// The query about a permission and these entries, six at most, with one byte in all
/// places behind them.
pub fn query(permission: u8, entries: &[[u8; 2]], behind: u8) -> Query {
    let mut query = [behind; QUERY];
    (query[0], query[1]) = (permission, entries.len() as u8);
    query[2..][..2 * entries.len()].copy_from_slice(entries.as_flattened());
    query
}

/// What a query asks the decision: about the entries that count or, where they are
/// more than six, about none, which gets the same.
pub fn asked_by(at: Context, query: &Query) -> Asked {
    let entries = match query[1] {
        count @ 0..=6 => usize::from(count),
        _ => 0,
    };
    Asked {
        permission: query[0].into(),
        at,
        group: query[2..][..2 * entries].to_vec(),
    }
}

/// The query that asks what the decision is asked, if there is one: of a group of
/// more than six entries it has the first six.
fn query_for(asked: &Asked) -> Option<Query> {
    let permission = u8::try_from(asked.permission).ok()?;
    let count = u8::try_from(asked.group.len() / 2).ok()?;
    let whole = asked.group.len().is_multiple_of(2);
    let mut query = [permission; QUERY];
    query[1] = count;
    let entries = asked.group.iter().take(12);
    query[2..]
        .iter_mut()
        .zip(entries)
        .for_each(|(byte, of)| *byte = *of);
    whole.then_some(query)
}

/// The answer to a call for a batch that the library and the model agree on. They
/// also agree on each byte that the buffer and its guards hold afterwards, and the
/// library answers each query as the decision does, and in a batch of its own.
pub fn agreed_batch(base: &[u8], batch: &Batch, lent: &mut Lent) -> u8 {
    let mut models = lent.clone();
    let by_model = batch.by_model(Reading::Paper, base, models.buffer());
    let before = (base.to_vec(), batch.queries.clone());
    let by_library = batch.by_library(base, lent.buffer());
    let case = || described(base, batch, lent.length());
    assert!(
        by_library == u32::from(by_model),
        "model {by_model}, library {by_library}, {}",
        case()
    );
    if let Some(place) = lent.first_difference(&models) {
        panic!("{by_model}, byte {place} of the buffer differs, {}", case());
    }
    let unchanged = (base, &batch.queries[..]) == (&before.0[..], &before.1[..]);
    assert!(unchanged, "base or queries were written, {}", case());
    if by_model == 0 {
        let found = lent.buffer().to_vec();
        for (query, answer) in batch.queries().iter().zip(found) {
            expect_alone(base, batch.at, query, answer);
        }
    }
    by_model
}

/// Asserts that the library's decision on a query, and its batch of the query alone,
/// give this answer.
fn expect_alone(base: &[u8], at: Context, query: &Query, answer: u8) {
    let decided = library_decision(base, None, &asked_by(at, query));
    let alone = library_answers(base, at, &[*query]);
    assert!(
        (decided, alone) == (answer.into(), Some([answer])),
        "in a batch {answer}, decided {decided}, alone {alone:?}, {at:?}, query {query:?}, base {}",
        hex(base)
    );
}

/// The library's answers to some queries, if the batch isn't refused.
fn library_answers<const N: usize>(
    base: &[u8],
    at: Context,
    queries: &[Query; N],
) -> Option<[u8; N]> {
    let mut found = [77; N];
    let refusal = Batch::new(at, queries).by_library(base, &mut found);
    (refusal == 0).then_some(found)
}

/// Asserts that a query that asks what the decision was asked gets the decision's
/// answer: alone, and as the last of a batch of five, which goes another way. A batch
/// is refused where base or context are.
pub(crate) fn expect_query(base: &[u8], asked: &Asked, decided: u8) {
    let Some(query) = query_for(asked) else {
        return;
    };
    let alone = library_answers(base, asked.at, &[query]);
    let none = [0; QUERY];
    let last = library_answers(base, asked.at, &[none, none, none, none, query]);
    let last = last.map(|[.., last]| [last]);
    let expected = match decided {
        1..=9 | 11 => None,
        10 if !asked.at.in_range() => None,
        _ => Some([decided]),
    };
    assert!(
        (alone, last) == (expected, expected),
        "decided {decided}, alone {alone:?}, last of five {last:?}, {:?}, query {query:?}, base {}",
        asked.at,
        hex(base)
    );
}

/// Asserts that the library and the model both give this answer and write these
/// answers at the buffer's start and no others, whatever it held before.
pub fn expect_batch(base: &[u8], batch: &Batch, room: usize, answer: u8, written: &[u8]) {
    let noise = Lent::noisy(&mut Random::new(room as u64), room);
    for before in [noise.inverted(), noise] {
        let mut lent = before.clone();
        let agreed = agreed_batch(base, batch, &mut lent);
        let case = || described(base, batch, room);
        assert!(
            agreed == answer,
            "expected {answer}, both gave {agreed}, {}",
            case()
        );
        let mut expected = before;
        expected.buffer()[..written.len()].copy_from_slice(written);
        let difference = lent.first_difference(&expected);
        assert!(
            difference.is_none(),
            "both wrote byte {difference:?}, {}",
            case()
        );
    }
}

fn described(base: &[u8], batch: &Batch, room: usize) -> String {
    let Batch { at, queries } = batch;
    let (queries, base) = (hex(queries), hex(base));
    format!("{at:?}, {room} bytes lent, queries {queries}, base {base}")
}

#[cfg(test)]
mod tests {
    use super::*;
    use crate::questions::at_minute;

    #[test]
    fn a_query_asks_about_the_entries_that_count() {
        let at = at_minute(600);
        let asked = asked_by(at, &query(3, &[[1, 2], [3, 4]], 9));
        assert_eq!((asked.permission, &asked.group[..]), (3, &[1, 2, 3, 4][..]));
        for (count, length) in [(0, 0), (1, 2), (6, 12), (7, 0), (255, 0)] {
            let mut query = [5; QUERY];
            query[1] = count;
            assert_eq!(asked_by(at, &query).group.len(), length);
        }
    }

    #[test]
    fn some_questions_have_a_query() {
        let query_for = |permission, group: &[u8]| {
            query_for(&Asked {
                permission,
                at: at_minute(600),
                group: group.to_vec(),
            })
        };
        assert_eq!(
            query_for(3, &[1, 2, 4, 5]),
            Some(query(3, &[[1, 2], [4, 5]], 3))
        );
        assert_eq!(query_for(0, &[]), Some([0; QUERY]));
        let seven = query_for(1, &[9; 14]).expect("seven entries are counted");
        assert_eq!((seven[1], &seven[2..]), (7, &[9; 12][..]));
        assert_eq!(query_for(255, &[9; 510]).map(|query| query[1]), Some(255));
        for (permission, length) in [(256, 2), (0, 1), (0, 13), (0, 512)] {
            assert_eq!(query_for(permission, &vec![0; length]), None);
        }
    }
}
