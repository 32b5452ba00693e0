//! Many decisions in one context.

use std::iter::FusedIterator;

use crate::answers;
use crate::context::Context;
use crate::decision::{first_entries, Entry};
use crate::refusal::{result_of, Refusal};

/// Bytes of a query: the permission, the number of entries and six entries of 2
/// bytes.
pub const QUERY_BYTES: usize = 14;

/// The most queries of a batch.
pub const MOST_QUERIES: usize = 1_024;

/// A question of a batch: may this group release this permission?
#[derive(Clone, Copy, Debug, PartialEq, Eq, Hash)]
pub struct Query {
    bytes: [u8; QUERY_BYTES],
}

impl Query {
    /// The query about a permission and a group. A group of no entry, or of more
    /// than six, is answered with [`Refusal::GroupLength`], as by
    /// [`decide`](crate::decide); of a longer one the query keeps six entries and
    /// that there are more.
    ///
    /// ```
    /// use release::{Entry, Query};
    ///
    /// let query = Query::new(0, &[Entry::new(0, 0), Entry::new(2, 2)]);
    /// assert_eq!(query.bytes(), [0, 2, 0, 0, 2, 2, 0, 0, 0, 0, 0, 0, 0, 0]);
    /// ```
    pub fn new(permission: u8, group: &[Entry]) -> Query {
        let mut bytes = [0; QUERY_BYTES];
        bytes[0] = permission;
        bytes[1] = u8::try_from(group.len()).unwrap_or(u8::MAX);
        for (part, entry) in bytes[2..].chunks_exact_mut(2).zip(group) {
            part.copy_from_slice(&entry.bytes());
        }
        Query { bytes }
    }

    /// The query in these bytes, whatever they are. Those behind the entries that
    /// count change no answer.
    ///
    /// ```
    /// use release::{Entry, Query};
    ///
    /// let query = Query::from_bytes([0, 1, 3, 2, 9, 9, 9, 9, 9, 9, 9, 9, 9, 9]);
    /// assert!(query.entries().eq([Entry::new(3, 2)]));
    /// ```
    pub fn from_bytes(bytes: [u8; QUERY_BYTES]) -> Query {
        Query { bytes }
    }

    /// The query as it stands in a batch's bytes.
    ///
    /// ```
    /// use release::{Entry, Query};
    ///
    /// let query = Query::new(1, &[Entry::new(3, 2)]);
    /// assert_eq!(Query::from_bytes(query.bytes()), query);
    /// ```
    pub fn bytes(self) -> [u8; QUERY_BYTES] {
        self.bytes
    }

    /// The permission's number.
    ///
    /// ```
    /// assert_eq!(release::Query::new(1, &[]).permission(), 1);
    /// ```
    pub fn permission(self) -> u8 {
        self.bytes[0]
    }

    /// The group's entries; of a group of more than six, which is answered with
    /// [`Refusal::GroupLength`], the first six.
    ///
    /// ```
    /// use release::{Entry, Query};
    ///
    /// let group = [Entry::new(0, 0), Entry::new(2, 2)];
    /// assert!(Query::new(0, &group).entries().eq(group));
    /// ```
    pub fn entries(&self) -> impl Iterator<Item = Entry> + '_ {
        first_entries(&self.bytes[2..], self.bytes[1].into())
    }
}

/// The answers to a batch of queries, in their order: `Ok` for a group that is
/// granted, else the refusal.
#[derive(Clone, Debug)]
pub struct Answers {
    bytes: std::vec::IntoIter<u8>,
}

impl Iterator for Answers {
    type Item = Result<(), Refusal>;

    fn next(&mut self) -> Option<Result<(), Refusal>> {
        self.bytes.next().map(|answer| result_of(answer.into()))
    }

    fn size_hint(&self) -> (usize, Option<usize>) {
        self.bytes.size_hint()
    }
}

impl ExactSizeIterator for Answers {}

impl FusedIterator for Answers {}

/// Whether each query's group may release its permission: an answer for each, that
/// of [`decide`](crate::decide) for the query alone in this context, which is one
/// of 10, 12 to 15, 24, 16 and 17 if it isn't `Ok`. Or the first of refusals 1 to 9,
/// 11 and 28 that applies; 28, [`Refusal::Queries`], if there are more than
/// [`MOST_QUERIES`].
///
/// The base is checked once for all of them, which makes a batch much quicker than
/// as many decisions. A context out of range is refused even where there is no
/// query.
///
/// ```
/// use release::example::SMALL_SHOP;
/// use release::{batch, Context, Entry, Query, Refusal};
///
/// let by_day = Context::new(600, 0, 0, 900);
/// let (manager, clerk) = (Entry::new(0, 0), Entry::new(2, 2));
/// let queries = [
///     Query::new(0, &[manager, clerk]),
///     Query::new(0, &[manager]),
///     Query::new(1, &[manager, clerk]),
/// ];
/// let answers = batch(&SMALL_SHOP, by_day, &queries)?;
/// assert!(answers.eq([Ok(()), Err(Refusal::Condition), Err(Refusal::NoPermission)]));
///
/// let no_day = Context::new(600, 7, 0, 900);
/// assert_eq!(batch(&SMALL_SHOP, no_day, &[]).err(), Some(Refusal::Context));
/// # Ok::<(), Refusal>(())
/// ```
pub fn batch(base: &[u8], context: Context, queries: &[Query]) -> Result<Answers, Refusal> {
    let bytes: Vec<[u8; QUERY_BYTES]> = queries.iter().map(|query| query.bytes).collect();
    let mut answers = vec![0; queries.len()];
    batch_into(base, context, bytes.as_flattened(), &mut answers)?;
    let bytes = answers.into_iter();
    Ok(Answers { bytes })
}

/// The same for queries as bytes, 14 each, which may be any bytes of any length:
/// the answer to each query is written into its byte of the buffer, in order, 0 or
/// a [refusal's number](Refusal::from_number). Later bytes keep their contents.
///
/// The result is the first of refusals 1 to 9, 11 and 28 that applies, if one does,
/// and then nothing is written: [`Refusal::Queries`] if the bytes aren't whole
/// queries, if there are more than [`MOST_QUERIES`], or if the buffer is shorter
/// than their number.
///
/// ```
/// use release::example::SMALL_SHOP;
/// use release::{batch_into, Context, Refusal};
///
/// let by_day = Context::new(600, 0, 0, 900);
/// let queries = [
///     [0, 2, 0, 0, 2, 2, 0, 0, 0, 0, 0, 0, 0, 0],
///     [0, 1, 0, 0, 9, 9, 9, 9, 9, 9, 9, 9, 9, 9], // one entry counts
///     [0, 7, 0, 0, 2, 2, 0, 0, 0, 0, 0, 0, 0, 0],
/// ];
/// let mut buffer = [77; 4];
/// let done = batch_into(&SMALL_SHOP, by_day, queries.as_flattened(), &mut buffer);
/// assert_eq!(done, Ok(()));
/// assert_eq!(buffer, [0, 17, 12, 77]);
///
/// let short = batch_into(&SMALL_SHOP, by_day, queries.as_flattened(), &mut buffer[..2]);
/// assert_eq!(short, Err(Refusal::Queries));
/// ```
pub fn batch_into(
    base: &[u8],
    context: Context,
    queries: &[u8],
    buffer: &mut [u8],
) -> Result<(), Refusal> {
    result_of(answers::batch(base, context, queries, buffer))
}

#[cfg(test)]
mod tests {
    use super::*;
    use crate::decision::decide;
    use crate::example::SMALL_SHOP;

    const BY_DAY: Context = Context {
        minute: 600,
        day: 0,
        zone: 0,
        date: 900,
    };

    const MANAGER: Entry = Entry { user: 0, role: 0 };
    const BUYER: Entry = Entry { user: 1, role: 1 };
    const CLERK: Entry = Entry { user: 2, role: 2 };

    /// The small shop's answers by day.
    fn answered(queries: &[Query]) -> Vec<Result<(), Refusal>> {
        let answers = batch(&SMALL_SHOP, BY_DAY, queries);
        answers.expect("nothing is refused").collect()
    }

    #[test]
    fn each_query_gets_what_the_decision_says() {
        let groups = [
            &[MANAGER, CLERK][..],
            &[MANAGER, BUYER],
            &[MANAGER],
            &[],
            &[MANAGER, MANAGER],
            &[Entry { user: 2, role: 1 }],
            &[Entry { user: 4, role: 2 }],
            &[BUYER, Entry { user: 0, role: 2 }],
        ];
        let queries: Vec<Query> = groups
            .iter()
            .flat_map(|group| [0, 1].map(|permission| Query::new(permission, group)))
            .collect();
        let decided = groups.iter().flat_map(|group| {
            [0, 1].map(|permission| decide(&SMALL_SHOP, permission, BY_DAY, group))
        });
        assert_eq!(answered(&queries), decided.collect::<Vec<_>>());
    }

    /// The first six would be granted, were they the group.
    #[test]
    fn a_group_of_any_length_is_a_query() {
        let mut shop = SMALL_SHOP;
        (shop[42], shop[45]) = (1, 1);
        for entries in [0, 1, 2, 6, 7, 8, 255, 256, 257, 258, 65_537] {
            let group = vec![MANAGER; entries];
            let mut answers = batch(&shop, BY_DAY, &[Query::new(0, &group)]).expect("one query");
            assert_eq!(answers.next(), Some(decide(&shop, 0, BY_DAY, &group)));
            assert_eq!(answers.next(), None);
        }
    }

    #[test]
    fn a_query_has_six_entries_at_most() {
        for entries in 0..300 {
            let group: Vec<Entry> = (0..entries).map(|user| Entry::new(user as u8, 9)).collect();
            let query = Query::new(3, &group);
            assert_eq!(query.permission(), 3);
            assert!(query.entries().eq(group.into_iter().take(6)));
            assert_eq!(query.bytes()[1], entries.min(255) as u8);
        }
    }

    #[test]
    fn there_are_as_many_answers_as_queries() {
        for count in [0, 1, 2, 1_023, MOST_QUERIES] {
            let queries = vec![Query::new(0, &[MANAGER, CLERK]); count];
            let answers = batch(&SMALL_SHOP, BY_DAY, &queries).expect("nothing is refused");
            assert_eq!(answers.len(), count);
            assert_eq!(answers.filter(Result::is_ok).count(), count);
        }
        let queries = vec![Query::new(0, &[MANAGER, CLERK]); MOST_QUERIES + 1];
        let refused = batch(&SMALL_SHOP, BY_DAY, &queries);
        assert_eq!(refused.err(), Some(Refusal::Queries));
    }

    #[test]
    fn refusals_come_in_order() {
        let late = Context::new(1440, 0, 0, 900);
        let mut buffer = [77; 2];
        for length in [0, 13, 14, 28, 42] {
            let queries = &[0; 42][..length];
            let mut refused = |base: &[u8], at| batch_into(base, at, queries, &mut buffer).err();
            assert_eq!(refused(&SMALL_SHOP[1..], late), Some(Refusal::Trailer));
            assert_eq!(refused(&[], BY_DAY), Some(Refusal::Length));
            assert_eq!(refused(&SMALL_SHOP, late), Some(Refusal::Context));
        }
        for length in [1, 13, 15, 27, 42] {
            let refused = batch_into(&SMALL_SHOP, BY_DAY, &[0; 42][..length], &mut buffer);
            assert_eq!(refused, Err(Refusal::Queries));
        }
        assert_eq!(buffer, [77; 2]);
        assert_eq!(batch_into(&SMALL_SHOP, BY_DAY, &[], &mut buffer), Ok(()));
        assert_eq!(buffer, [77; 2]);
        let one = batch_into(&SMALL_SHOP, BY_DAY, &[0; 14], &mut buffer);
        assert_eq!((one, buffer), (Ok(()), [12, 77]));
    }
}
