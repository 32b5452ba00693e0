//! How users came to vouch or not, and what a register cost the numbers of the
//! first report.

use compare::questions::Asked;
use compare::tally::Tally;
use compare::trust::Trust;
use compare::ways::{Link, Way};

const NUMBERS: &[u8] = &[0, 1, 2, 3, 4, 5, 6];

/// What a register costs a smallest number.
#[derive(Clone, Copy)]
enum Cost {
    /// It is that of the first report.
    Nothing,
    /// More entries are needed.
    More,
    /// There is no group.
    Group,
}

const COSTS: [(Cost, &str); 3] = [
    (Cost::Nothing, "the first report's k"),
    (Cost::More, "more than the first report's k"),
    (Cost::Group, "no group, but one in the first report"),
];

#[derive(Default)]
pub struct Trusted {
    vouched: Tally<15>,
    not_vouched: Tally<15>,
    numbers: Tally<7>,
    costs: Tally<3>,
    granted_alone: usize,
    shown_behind: usize,
    out_of_date: usize,
    full_registers: usize,
    empty_registers: usize,
}

impl Trusted {
    /// Notes the ways in which the users of a granted group vouch or, of 26, those
    /// in which some of them don't.
    pub fn decided(&mut self, trust: &Trust, asked: &Asked, answer: u8) {
        let others = asked.group.iter().step_by(2).skip(1);
        let ways: Vec<Vec<Way>> = others.map(|user| ways(trust, asked, *user)).collect();
        let is_vouched = |ways: &&Vec<Way>| ways.iter().any(|way| way.is_vouched());
        assert_eq!(ways.iter().all(|ways| is_vouched(&ways)), answer == 0);
        let tally = match answer {
            0 => &mut self.vouched,
            _ => &mut self.not_vouched,
        };
        let noted = ways.iter().filter(|ways| is_vouched(ways) == (answer == 0));
        noted.flatten().for_each(|way| tally.add(*way as u8));
        self.granted_alone += usize::from(answer == 0 && ways.is_empty());
        self.full_registers += usize::from(trust.register.len() == 2_048);
        self.empty_registers += usize::from(trust.register.is_empty());
    }

    /// Notes a report's numbers beside those of the first report.
    pub fn reported(&mut self, numbers: &[u8], first: &[u8]) {
        for (k, first) in numbers.iter().zip(first) {
            let cost = match k {
                k if k == first => Cost::Nothing,
                0 => Cost::Group,
                k => {
                    assert!(0 < *first && first < k, "{k}, in the first report {first}");
                    Cost::More
                }
            };
            self.numbers.add(*k);
            self.costs.add(cost as u8);
        }
    }

    /// Notes whether a user of a lower number is shown behind the requester.
    pub fn shown_behind(&mut self, it_has: bool) {
        self.shown_behind += usize::from(it_has);
    }

    /// Notes whether a requester of a report is out of date.
    pub fn out_of_date(&mut self, it_is: bool) {
        self.out_of_date += usize::from(it_is);
    }

    fn counts(&self) -> [(&str, usize); 5] {
        [
            ("a requester granted alone", self.granted_alone),
            ("a lower user shown behind the requester", self.shown_behind),
            ("a requester out of date", self.out_of_date),
            ("a full register", self.full_registers),
            ("an empty register", self.empty_registers),
        ]
    }

    pub fn lines(&self) -> Vec<String> {
        let vouched = lines("vouched", &Way::VOUCHED, &self.vouched);
        let not_vouched = lines("not vouched", &Way::NOT_VOUCHED, &self.not_vouched);
        let costs = COSTS.map(|(cost, name)| {
            let seen = self.costs.seen(cost as u8);
            format!("for a requester, {name}: {seen} times")
        });
        let numbers = NUMBERS.iter().map(|k| {
            let seen = self.numbers.seen(*k);
            format!("for a requester, k = {k}: {seen} times")
        });
        let counts = self.counts();
        let counts = counts
            .iter()
            .map(|(name, seen)| format!("{name}: {seen} times"));
        let ways = vouched.into_iter().chain(not_vouched);
        ways.chain(numbers).chain(costs).chain(counts).collect()
    }

    pub fn expect_all(&self) {
        let vouched = Way::VOUCHED.map(|(way, _)| way as u8);
        self.vouched.expect_exactly("vouched, way", &vouched);
        let not_vouched = Way::NOT_VOUCHED.map(|(way, _)| way as u8);
        self.not_vouched
            .expect_exactly("not vouched, way", &not_vouched);
        self.numbers.expect_exactly("for a requester, k =", NUMBERS);
        let costs = COSTS.map(|(cost, _)| cost as u8);
        self.costs.expect_exactly("for a requester, cost", &costs);
        for (name, seen) in self.counts() {
            assert!(seen >= 100, "{name}: {seen} times");
        }
    }
}

/// The ways of a user in the group.
fn ways(trust: &Trust, asked: &Asked, user: u8) -> Vec<Way> {
    let link = Link {
        user,
        requester: asked.group[0],
        permission: asked.permission as u8,
        date: asked.at.date,
        threshold: trust.threshold,
    };
    link.ways(&trust.statements())
}

fn lines(name: &str, ways: &[(Way, &str)], tally: &Tally<15>) -> Vec<String> {
    let line = |(way, of): &(Way, &str)| {
        let seen = tally.seen(*way as u8);
        format!("{name}, {of}: {seen} times")
    };
    ways.iter().map(line).collect()
}
