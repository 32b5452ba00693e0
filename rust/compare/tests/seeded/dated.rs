//! Where dates lay beside users' days, what days cost reports, and what they
//! leave alone.

use compare::days::{edges, Edge, Loss};
use compare::tally::Tally;
use model::Base;

const EDGES: [(Edge, &str); 5] = [
    (Edge::FirstDay, "granted on a user's first day"),
    (Edge::LastDay, "granted on a user's last day"),
    (Edge::OnlyDay, "granted on a user's only day"),
    (Edge::DayBefore, "refused the day before a user's first"),
    (Edge::DayBehind, "refused the day behind a user's last"),
];

const LOSSES: [(Loss, &str); 3] = [
    (Loss::Nothing, "the same k with all days"),
    (Loss::More, "more by users' days"),
    (Loss::Group, "no group by users' days"),
];

#[derive(Default)]
pub struct Dated {
    decided: Tally<5>,
    asked: Tally<5>,
    losses: Tally<3>,
    losses_by_lists: Tally<3>,
    turned_alone: usize,
    signed_with_days: usize,
    bounded_out_of_date: usize,
    lists_with_days: usize,
}

impl Dated {
    /// Notes the answer to a group on a date.
    pub fn decided(&mut self, base: &[u8], date: u32, group: &[u8], answer: u8) {
        note_edges(&mut self.decided, base, date, group, answer);
    }

    /// Notes the answer to a sheet that holds this group.
    pub fn asked(&mut self, base: &[u8], date: u32, group: &[u8], answer: u8) {
        note_edges(&mut self.asked, base, date, group, answer);
    }

    /// Notes what days cost the numbers of a report.
    pub fn losses(&mut self, losses: &[Loss]) {
        losses.iter().for_each(|loss| self.losses.add(*loss as u8));
    }

    /// The same of a report by a list.
    pub fn losses_by_list(&mut self, losses: &[Loss]) {
        let losses = losses.iter();
        losses.for_each(|loss| self.losses_by_lists.add(*loss as u8));
    }

    /// Notes whether a base gets 5 for days that are turned, and for no parameter.
    pub fn turned_alone(&mut self, it_is: bool) {
        self.turned_alone += usize::from(it_is);
    }

    /// Notes whether the user of an accepted signing hasn't all days.
    pub fn signed_with_days(&mut self, it_is: bool) {
        self.signed_with_days += usize::from(it_is);
    }

    /// Notes whether a group has a bound and a decision of 24.
    pub fn bounded_out_of_date(&mut self, it_is: bool) {
        self.bounded_out_of_date += usize::from(it_is);
    }

    /// Notes whether there are conflicts in a base whose users haven't all days.
    pub fn list_with_days(&mut self, it_is: bool) {
        self.lists_with_days += usize::from(it_is);
    }

    fn of_edges(&self) -> [(&str, &Tally<5>); 2] {
        [("decided", &self.decided), ("asked", &self.asked)]
    }

    fn of_losses(&self) -> [(&str, &Tally<3>); 2] {
        [
            ("report", &self.losses),
            ("report_by", &self.losses_by_lists),
        ]
    }

    fn counts(&self) -> [(&str, usize); 4] {
        [
            ("refused by 5 for days alone", self.turned_alone),
            ("signed by a user of few days", self.signed_with_days),
            ("bounded out of date", self.bounded_out_of_date),
            ("conflicts with users of few days", self.lists_with_days),
        ]
    }

    pub fn lines(&self) -> Vec<String> {
        let edges = self.of_edges().into_iter().flat_map(|(name, tally)| {
            EDGES.map(|(edge, of)| {
                let seen = tally.seen(edge as u8);
                format!("{name}, {of}: {seen} times")
            })
        });
        let losses = self.of_losses().into_iter().flat_map(|(name, tally)| {
            LOSSES.map(|(loss, of)| {
                let seen = tally.seen(loss as u8);
                format!("{name}, {of}: {seen} times")
            })
        });
        let counts = self.counts();
        let counts = counts
            .iter()
            .map(|(name, seen)| format!("{name}: {seen} times"));
        edges.chain(losses).chain(counts).collect()
    }

    pub fn expect_all(&self) {
        let edges = EDGES.map(|(edge, _)| edge as u8);
        for (name, tally) in self.of_edges() {
            tally.expect_exactly(&format!("{name}, edge of days"), &edges);
        }
        let losses = LOSSES.map(|(loss, _)| loss as u8);
        for (name, tally) in self.of_losses() {
            tally.expect_exactly(&format!("{name}, loss"), &losses);
        }
        for (name, seen) in self.counts() {
            assert!(seen >= 100, "{name}: {seen} times");
        }
    }
}

fn note_edges(tally: &mut Tally<5>, base: &[u8], date: u32, group: &[u8], answer: u8) {
    if let 0 | 24 = answer {
        let base = Base::read(base).expect("1 to 9 come first");
        let edges = edges(&base, date, group, answer);
        edges.into_iter().for_each(|edge| tally.add(edge as u8));
    }
}
