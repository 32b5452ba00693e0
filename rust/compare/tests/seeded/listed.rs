//! What resolution lists decided, and which of them gave different answers.

use compare::choices::Event;
use compare::lists::LEGAL;
use compare::tally::Tally;

const EVENTS: [(Event, &str); 7] = [
    (Event::LaterDay, "chosen by the later day"),
    (Event::LargerRank, "chosen by the larger rank"),
    (Event::SmallerWeight, "chosen by the smaller weight"),
    (Event::TableOrder, "chosen by table order"),
    (Event::Apart, "own and inh choose different policies"),
    (Event::InactiveBefore, "an inactive policy would go before"),
    (Event::OtherThanFirst, "another policy than without a list"),
];

#[derive(Default)]
pub struct Listed {
    events: Tally<7>,
    pub decisions: Apart,
    pub reports: Apart,
}

impl Listed {
    /// Notes what came up where a list chose policies.
    pub fn events(&mut self, events: &[Event]) {
        events
            .iter()
            .for_each(|event| self.events.add(*event as u8));
    }

    fn calls(&self) -> [(&str, &Apart); 2] {
        [("decide_by", &self.decisions), ("report_by", &self.reports)]
    }

    pub fn lines(&self) -> Vec<String> {
        let events = EVENTS.iter().map(|(event, name)| {
            let seen = self.events.seen(*event as u8);
            format!("{name}: {seen} times")
        });
        let apart = self.calls().map(|(name, apart)| apart.lines(name));
        events.chain(apart.into_iter().flatten()).collect()
    }

    pub fn expect_all(&self) {
        let events = EVENTS.map(|(event, _)| event as u8);
        self.events.expect_exactly("event", &events);
        for (name, apart) in self.calls() {
            apart.expect_all(name);
        }
    }
}

/// How often a list's answer wasn't that without a list, and how often two
/// lists gave different answers.
#[derive(Default)]
pub struct Apart {
    from_none: [usize; LEGAL.len()],
    from_each_other: [[usize; LEGAL.len()]; LEGAL.len()],
}

impl Apart {
    /// Notes the answers by each of [`LEGAL`], and the one without a list.
    pub fn note<T: PartialEq>(&mut self, by_lists: &[T; LEGAL.len()], without: &T) {
        for (i, one) in by_lists.iter().enumerate() {
            self.from_none[i] += usize::from(one != without);
            for (j, other) in by_lists.iter().enumerate() {
                self.from_each_other[i][j] += usize::from(one != other);
            }
        }
    }

    fn lines(&self, name: &str) -> Vec<String> {
        let lists = LEGAL.iter().zip(self.from_none);
        lists
            .map(|(list, times)| format!("{name} {list:?}: other than without {times} times"))
            .collect()
    }

    /// Asserts that each list was told from none, and each two lists from each
    /// other if answers can tell them.
    fn expect_all(&self, name: &str) {
        for (i, one) in LEGAL.iter().enumerate() {
            assert!(self.from_none[i] > 0, "{name}: {one:?} did as no list does");
            for (j, other) in LEGAL.iter().enumerate() {
                let times = self.from_each_other[i][j];
                let differ = told(one) != told(other);
                assert_eq!(
                    times > 0,
                    differ,
                    "{name}: {one:?}, {other:?}, {times} times"
                );
            }
        }
    }
}

/// What answers can tell of a list: its rules up to the smaller weight. Policies
/// that it doesn't tell apart have the same weight, whichever is chosen.
fn told(list: &[u8]) -> &[u8] {
    let weight = list.iter().position(|rule| *rule == 2);
    &list[..weight.map_or(list.len(), |place| place + 1)]
}
