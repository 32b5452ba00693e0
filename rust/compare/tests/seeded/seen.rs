//! What the comparison saw: how often each answer and number came up, how far below
//! their roles users acted, and what came of exclusions, resolution lists,
//! withdrawals, codes tried, users' days, registers and queries.

use std::io::Write;
use std::time::Duration;

use compare::acting::{Gain, RECORDS};
use compare::excluded::Ways;
use compare::tally::Tally;

use crate::dated::Dated;
use crate::listed::Listed;
use crate::queried::Queried;
use crate::tried::Tried;
use crate::trusted::Trusted;
use crate::withdrawn::Withdrawn;

/// The library's calls.
#[derive(Clone, Copy)]
pub enum Call {
    Check,
    Decide,
    Report,
    Conflicts,
    Open,
    Sign,
    Withdraw,
    Ask,
    Bound,
    DecideBy,
    ReportBy,
    Parameter,
    DecideVouched,
    ReportVouched,
    Batch,
}

const CALLS: usize = 15;

/// One past the last refusal's number.
const REFUSALS: usize = 29;

const NAMES: [&str; CALLS] = [
    "check",
    "decide",
    "report",
    "conflicts",
    "open",
    "sign",
    "withdraw",
    "ask",
    "bound",
    "decide_by",
    "report_by",
    "parameter",
    "decide_vouched",
    "report_vouched",
    "batch",
];

/// The answers that each call can give.
const ANSWERS: [&[u8]; CALLS] = [
    &[0, 1, 2, 3, 4, 5, 6, 7, 8, 9],
    &[
        0, 1, 2, 3, 4, 5, 6, 7, 8, 9, 10, 11, 12, 13, 14, 15, 24, 16, 17,
    ],
    &[0, 1, 2, 3, 4, 5, 6, 7, 8, 9, 11, 19],
    &[0, 1, 2, 3, 4, 5, 6, 7, 8, 9, 18],
    &[0, 1, 2, 3, 4, 5, 6, 7, 8, 9, 10],
    &[0, 1, 2, 3, 4, 5, 6, 7, 8, 9, 13, 14, 15, 20],
    &[0, 23],
    &[
        0, 1, 2, 3, 4, 5, 6, 7, 8, 9, 10, 11, 12, 13, 14, 15, 24, 16, 17,
    ],
    &[0, 1, 2, 3, 4, 5, 6, 7, 8, 9, 12, 13, 14, 15, 21],
    &[
        0, 1, 2, 3, 4, 5, 6, 7, 8, 9, 22, 10, 11, 12, 13, 14, 15, 24, 16, 17,
    ],
    &[0, 1, 2, 3, 4, 5, 6, 7, 8, 9, 22, 11, 19],
    &[0, 5],
    &[
        0, 1, 2, 3, 4, 5, 6, 7, 8, 9, 25, 27, 10, 11, 12, 13, 14, 15, 24, 26, 16, 17,
    ],
    &[0, 1, 2, 3, 4, 5, 6, 7, 8, 9, 25, 27, 11, 13, 19],
    &[0, 1, 2, 3, 4, 5, 6, 7, 8, 9, 11, 28],
];

/// Those that a sheet can get that calls made: no user stands on it twice.
const ANSWERS_TO_MADE: &[u8] = &[0, 1, 2, 3, 4, 5, 6, 7, 8, 9, 10, 11, 12, 13, 15, 24, 16, 17];

const NUMBERS: &[u8] = &[0, 1, 2, 3, 4, 5, 6];
const KINDS: &[u8] = &[1, 2, 3];

/// Up to six entries times a difference of up to 4.
const BOUNDS: &[u8] = &[0, 1, 2, 3, 4, 5, 6, 8, 9, 10, 12, 15, 16, 18, 20, 24];

const GAINS: [(Gain, &str); 3] = [
    (Gain::Nothing, "the same k by holding alone"),
    (Gain::Fewer, "fewer by acting below a role held"),
    (Gain::Group, "a group only by acting below a role held"),
];

/// The fewest cases of each call: 1,200,000 and more in all.
const FEWEST: [usize; CALLS] = [
    100_000, 150_000, 20_000, 40_000, 20_000, 100_000, 100_000, 100_000, 100_000, 150_000, 30_000,
    200_000, 100_000, 15_000, 25_000,
];

#[derive(Default)]
pub struct Seen {
    answers: [Tally<REFUSALS>; CALLS],
    numbers: Tally<7>,
    kinds: Tally<4>,
    most_conflicts: u32,
    answers_to_made: Tally<REFUSALS>,
    signatures: Tally<7>,
    granted: Tally<8>,
    signed: Tally<8>,
    asked: Tally<8>,
    shown: Tally<8>,
    gains: Tally<3>,
    bounds: Tally<25>,
    bounded: Tally<8>,
    reached: Tally<8>,
    excluded: Ways,
    pub lists: Listed,
    pub withdrawn: Withdrawn,
    pub tried: Tried,
    pub dated: Dated,
    pub trusted: Trusted,
    pub queried: Queried,
}

impl Seen {
    /// Notes an answer to a call, 0 or a refusal's number: one case.
    pub fn answer(&mut self, call: Call, answer: u8) {
        self.answers[call as usize].add(answer);
    }

    /// Notes the numbers of approvers in a report.
    pub fn numbers(&mut self, numbers: &[u8]) {
        numbers.iter().for_each(|k| self.numbers.add(*k));
    }

    /// Notes the conflicts in a base's list, 3 bytes each.
    pub fn conflicts(&mut self, base: &[u8], list: &[u8]) {
        self.excluded.note(base, list);
        let kinds = list.iter().step_by(3);
        kinds.for_each(|kind| self.kinds.add(*kind));
        self.most_conflicts = self.most_conflicts.max(list.len() as u32 / 3);
    }

    /// Notes the answer to a sheet that calls made, with so many signatures.
    pub fn made(&mut self, answer: u8, signatures: usize) {
        self.answers_to_made.add(answer);
        self.signatures.add(signatures as u8);
    }

    /// Notes how many H records a granted group's users need at most to reach
    /// their roles from those held.
    pub fn granted(&mut self, records: u8) {
        self.granted.add(records);
    }

    /// Notes how many the user of an accepted signing needs.
    pub fn signed(&mut self, records: u8) {
        self.signed.add(records);
    }

    /// Notes how many the users of a sheet that calls made and that is granted
    /// need at most.
    pub fn asked(&mut self, records: u8) {
        self.asked.add(records);
    }

    /// Notes how many those of a group shown in a report need at most.
    pub fn shown(&mut self, records: u8) {
        self.shown.add(records);
    }

    /// Notes what acting in roles not held brings to the numbers of a report.
    pub fn gains(&mut self, gains: &[Gain]) {
        gains.iter().for_each(|gain| self.gains.add(*gain as u8));
    }

    /// Notes a bound, and how many H records the group's users need at most.
    pub fn bound(&mut self, bound: u32, records: u8) {
        self.bounds.add(bound as u8);
        self.bounded.add(records);
    }

    /// Notes how many H records lead from the role of an entry that counts to
    /// the policy's.
    pub fn reached(&mut self, records: u8) {
        self.reached.add(records);
    }

    /// How many H records users needed where that depends on no choice of group,
    /// and how many made an entry count towards a bound.
    fn acting(&self) -> [(&str, &Tally<8>); 5] {
        [
            ("granted, H records:", &self.granted),
            ("signed, H records:", &self.signed),
            ("sheet granted, H records:", &self.asked),
            ("bounded, H records:", &self.bounded),
            ("reached, H records:", &self.reached),
        ]
    }

    fn cases(&self) -> usize {
        self.answers.iter().map(Tally::total).sum()
    }

    /// Prints all of it, also where the tests' output is kept back.
    pub fn print(&self, taken: Duration) {
        let head = line("answer", NAMES.map(str::to_string), "in all");
        let answers = (0..REFUSALS as u8).map(|answer| {
            let seen = self.answers.each_ref().map(|tally| tally.seen(answer));
            row(&answer.to_string(), seen)
        });
        let totals = row("in all", self.answers.each_ref().map(Tally::total));
        let numbers = NUMBERS.iter().map(|k| counted("k =", &self.numbers, *k));
        let kinds = KINDS.iter().map(|kind| counted("kind", &self.kinds, *kind));
        let signatures = NUMBERS.iter();
        let signatures = signatures.map(|number| counted("signatures:", &self.signatures, *number));
        let shown = ("shown, H records:", &self.shown);
        let acting = self.acting().into_iter().chain([shown]);
        let acting = acting.flat_map(|(name, tally)| {
            let records = RECORDS.iter();
            records.map(move |records| counted(name, tally, *records))
        });
        let bounds = BOUNDS
            .iter()
            .map(|bound| counted("bound", &self.bounds, *bound));
        let gains = GAINS.iter().map(|(gain, name)| {
            let seen = self.gains.seen(*gain as u8);
            format!("{name}: {seen} times")
        });
        let last = format!(
            "{} cases in {:.1} seconds, at most {} conflicts in one list",
            self.cases(),
            taken.as_secs_f64(),
            self.most_conflicts
        );
        let lines: Vec<String> = std::iter::once(head)
            .chain(answers)
            .chain([totals])
            .chain(numbers)
            .chain(kinds)
            .chain(signatures)
            .chain(bounds)
            .chain(acting)
            .chain(gains)
            .chain(self.excluded.lines())
            .chain(self.lists.lines())
            .chain(self.withdrawn.lines())
            .chain(self.tried.lines())
            .chain(self.dated.lines())
            .chain(self.trusted.lines())
            .chain(self.queried.lines())
            .chain([last])
            .collect();
        let text = format!("\n{}\n", lines.join("\n"));
        let printed = std::io::stdout().write_all(text.as_bytes());
        printed.expect("standard output takes it");
    }

    /// Asserts that there were enough cases, and everything among them.
    pub fn expect_all(&self) {
        for call in 0..CALLS {
            let (tally, name) = (&self.answers[call], NAMES[call]);
            tally.expect_exactly(&format!("{name}: answer"), ANSWERS[call]);
            assert!(tally.total() >= FEWEST[call], "{name}: too few cases");
        }
        self.numbers.expect_exactly("k =", NUMBERS);
        self.kinds.expect_exactly("kind", KINDS);
        assert!(self.most_conflicts > 1_000, "no long list");
        self.answers_to_made
            .expect_exactly("a sheet that calls made: answer", ANSWERS_TO_MADE);
        self.signatures.expect_exactly("signatures:", NUMBERS);
        for (name, tally) in self.acting() {
            tally.expect_exactly(name, &RECORDS);
        }
        let far: usize = (2..8).map(|records| self.shown.seen(records)).sum();
        assert!(far > 0, "no group shown needs two H records or more");
        let gains = GAINS.map(|(gain, _)| gain as u8);
        self.gains.expect_exactly("gain", &gains);
        self.bounds.expect_exactly("bound", BOUNDS);
        self.excluded.expect_each(100);
        self.lists.expect_all();
        self.withdrawn.expect_all();
        self.tried.expect_all();
        self.dated.expect_all();
        self.trusted.expect_all();
        self.queried.expect_all();
    }
}

/// A line of the table: a name, the calls and their sum.
fn line(name: &str, calls: [String; CALLS], all: &str) -> String {
    let widths = NAMES.map(|name| name.len().max(9));
    let calls = calls.iter().zip(widths);
    let calls: Vec<String> = calls
        .map(|(call, width)| format!("{call:>width$}"))
        .collect();
    format!("{name:>6} {} {all:>9}", calls.join(" "))
}

fn row(name: &str, seen: [usize; CALLS]) -> String {
    let all: usize = seen.iter().sum();
    line(name, seen.map(|count| count.to_string()), &all.to_string())
}

fn counted<const NUMBERS: usize>(name: &str, tally: &Tally<NUMBERS>, number: u8) -> String {
    format!("{name} {number}: {} times", tally.seen(number))
}
