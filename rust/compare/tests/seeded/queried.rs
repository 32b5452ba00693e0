//! What batches asked: how many queries, about one permission or several, with how
//! many entries; what each got; and why a batch was refused by 28.

use compare::batches::{Batch, MOST_QUERIES, QUERY};
use compare::tally::Tally;
use model::Reading;

/// The answers that a query can get.
const ANSWERS: &[u8] = &[0, 10, 12, 13, 14, 15, 24, 16, 17];

#[derive(Default)]
pub struct Queried {
    answers: Tally<29>,
    /// How many entries counted.
    entries: Tally<256>,
    /// Queries whose other entries would have changed the answer.
    unused_differ: usize,
    without_a_query: usize,
    of_one: usize,
    of_1_023: usize,
    of_1_024: usize,
    /// Batches of two or more.
    about_one_permission: usize,
    about_several: usize,
    with_later_bytes: usize,
    not_whole: usize,
    too_many: usize,
    without_room: usize,
}

impl Queried {
    /// Notes a batch that isn't refused, with the buffer afterwards.
    pub fn answered(&mut self, base: &[u8], batch: &Batch, buffer: &[u8]) {
        let queries = batch.queries();
        let answers = &buffer[..queries.len()];
        answers.iter().for_each(|answer| self.answers.add(*answer));
        queries.iter().for_each(|query| self.entries.add(query[1]));
        let mut by_all_six = vec![0; queries.len()];
        batch.by_model(Reading::UnusedRead, base, &mut by_all_six);
        let pairs = answers.iter().zip(&by_all_six);
        self.unused_differ += pairs.filter(|(one, other)| one != other).count();
        self.with_later_bytes += usize::from(buffer.len() > queries.len());
        self.note_size(batch);
    }

    fn note_size(&mut self, batch: &Batch) {
        let queries = batch.queries();
        match queries.len() {
            0 => self.without_a_query += 1,
            1 => self.of_one += 1,
            1_023 => self.of_1_023 += 1,
            MOST_QUERIES => self.of_1_024 += 1,
            _ => (),
        }
        if let [first, others @ ..] = queries {
            let alike = others.iter().all(|query| query[0] == first[0]);
            self.about_one_permission += usize::from(alike && !others.is_empty());
            self.about_several += usize::from(!alike);
        }
    }

    /// Notes a batch refused by 28, by the first reason that there is for it.
    pub fn unfit(&mut self, batch: &Batch, room: usize) {
        let count = batch.queries().len();
        if batch.queries.len() != QUERY * count {
            self.not_whole += 1;
        } else if count > MOST_QUERIES {
            self.too_many += 1;
        } else {
            assert!(room < count, "room for {room} of {count}");
            self.without_room += 1;
        }
    }

    fn counts(&self) -> [(&str, usize); 11] {
        [
            (
                "a query whose unused entries would matter",
                self.unused_differ,
            ),
            ("a batch without a query", self.without_a_query),
            ("of one query", self.of_one),
            ("of 1,023 queries", self.of_1_023),
            ("of 1,024 queries", self.of_1_024),
            ("about one permission alone", self.about_one_permission),
            ("about several permissions", self.about_several),
            ("with later bytes in the buffer", self.with_later_bytes),
            ("28, no whole queries", self.not_whole),
            ("28, more than 1,024", self.too_many),
            ("28, a shorter buffer", self.without_room),
        ]
    }

    pub fn lines(&self) -> Vec<String> {
        let answers = ANSWERS.iter().map(|answer| {
            let seen = self.answers.seen(*answer);
            format!("query: answer {answer}: {seen} times")
        });
        let counts = self.counts();
        let counts = counts
            .iter()
            .map(|(name, seen)| format!("batches, {name}: {seen} times"));
        let queries = format!("queries: {}", self.answers.total());
        answers.chain(counts).chain([queries]).collect()
    }

    pub fn expect_all(&self) {
        for answer in 0..29 {
            let expected = ANSWERS.contains(&answer);
            let seen = self.answers.seen(answer);
            assert_eq!(seen > 0, expected, "query: answer {answer}: {seen} times");
        }
        for entries in 0..=255 {
            let seen = self.entries.seen(entries);
            assert!(seen > 0, "no query counts {entries} entries");
        }
        for (name, seen) in self.counts() {
            assert!(seen >= 20, "batches, {name}: {seen} times");
        }
    }
}
