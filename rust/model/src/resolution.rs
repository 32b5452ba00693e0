//! Which of two policies goes before: priority rules and their order (004,
//! definitions 16 and 17).

use crate::reading::Reading;
use crate::records::Policy;
use crate::refusal::{refuse_if, Refusal};

/// The most rules of a resolution list.
const MOST_RULES: usize = 3;

/// A rule by which one policy may go before another.
#[derive(Clone, Copy, Debug, PartialEq, Eq)]
pub enum Rule {
    LaterDay,
    LargerRank,
    SmallerWeight,
}

impl Rule {
    fn from_number(number: u8) -> Option<Rule> {
        match number {
            0 => Some(Rule::LaterDay),
            1 => Some(Rule::LargerRank),
            2 => Some(Rule::SmallerWeight),
            _ => None,
        }
    }

    /// Whether the rule puts one policy before another.
    fn puts_before(self, one: &Policy, other: &Policy) -> bool {
        match self {
            Rule::LaterDay => one.issue_day > other.issue_day,
            Rule::LargerRank => one.rank > other.rank,
            Rule::SmallerWeight => one.weight < other.weight,
        }
    }

    /// Whether a wrong reading turns the rule round.
    fn is_turned(self, reading: Reading) -> bool {
        match self {
            Rule::LaterDay => reading == Reading::EarlierDay,
            Rule::LargerRank => reading == Reading::SmallerRank,
            Rule::SmallerWeight => reading == Reading::LargerWeight,
        }
    }
}

/// All lists of one to three different rules.
pub const LEGAL_LISTS: [&[u8]; 15] = [
    &[0],
    &[1],
    &[2],
    &[0, 1],
    &[0, 2],
    &[1, 0],
    &[1, 2],
    &[2, 0],
    &[2, 1],
    &[0, 1, 2],
    &[0, 2, 1],
    &[1, 0, 2],
    &[1, 2, 0],
    &[2, 0, 1],
    &[2, 1, 0],
];

/// A policy with its number in A.
pub type Numbered<'a> = (usize, &'a Policy);

/// A resolution list that 22 doesn't refuse, or none.
#[derive(Clone, Debug, Default, PartialEq, Eq)]
pub struct Resolution {
    rules: Vec<Rule>,
    reading: Reading,
}

impl Resolution {
    pub fn none() -> Resolution {
        Resolution::default()
    }

    /// None where no list is lent, or that list, or refusal 22.
    pub fn lent(reading: Reading, list: Option<&[u8]>) -> Result<Resolution, Refusal> {
        let read = |list| Resolution::read_as(reading, list);
        list.map_or(Ok(Resolution::none()), read)
    }

    /// The list in these bytes, or refusal 22.
    pub fn read(list: &[u8]) -> Result<Resolution, Refusal> {
        Resolution::read_as(Reading::Paper, list)
    }

    /// The same, read so.
    pub fn read_as(reading: Reading, list: &[u8]) -> Result<Resolution, Refusal> {
        let list = match reading {
            Reading::FirstThreeBytes => &list[..list.len().min(MOST_RULES)],
            _ => list,
        };
        let fewest = usize::from(reading != Reading::EmptyAsNone);
        let has_length = (fewest..=MOST_RULES).contains(&list.len());
        refuse_if(!has_length, Refusal::Resolution)?;
        let repeats = repeats(list) && reading != Reading::RepeatsAllowed;
        refuse_if(repeats, Refusal::Resolution)?;
        let mut rules = rules_of(reading, list).ok_or(Refusal::Resolution)?;
        match reading {
            Reading::LastRuleFirst => rules.reverse(),
            Reading::FirstRuleAlone => rules.truncate(1),
            _ => (),
        }
        Ok(Resolution { rules, reading })
    }

    pub fn is_none(&self) -> bool {
        self.rules.is_empty()
    }

    /// The first rule that tells two policies apart, if one does.
    pub fn deciding_rule(&self, one: &Policy, other: &Policy) -> Option<Rule> {
        let tells_apart =
            |rule: &Rule| rule.puts_before(one, other) || rule.puts_before(other, one);
        self.rules.iter().copied().find(tells_apart)
    }

    /// Of two policies with the same role and permission, the first rule that
    /// tells them apart decides which goes before, or else table order.
    pub fn goes_before(&self, one: Numbered, other: Numbered) -> bool {
        match self.deciding_rule(one.1, other.1) {
            Some(rule) if rule.is_turned(self.reading) => rule.puts_before(other.1, one.1),
            Some(rule) => rule.puts_before(one.1, other.1),
            None if self.reading == Reading::LastOfEqual => other.0 < one.0,
            None => one.0 < other.0,
        }
    }

    /// The candidates that no other one goes before, by comparing all pairs.
    pub fn unpreceded<'a>(&self, candidates: &[Numbered<'a>]) -> Vec<Numbered<'a>> {
        let all = candidates.iter().copied();
        let is_preceded = |one| candidates.iter().any(|other| self.goes_before(*other, one));
        all.filter(|one| !is_preceded(*one)).collect()
    }
}

fn repeats(list: &[u8]) -> bool {
    (1..list.len()).any(|place| list[..place].contains(&list[place]))
}

/// The rules of a list's bytes, or nothing where another byte is among them.
fn rules_of(reading: Reading, list: &[u8]) -> Option<Vec<Rule>> {
    let rules = list.iter().map(|byte| Rule::from_number(*byte));
    match reading {
        Reading::OtherBytesAllowed => Some(rules.flatten().collect()),
        _ => rules.collect(),
    }
}

#[cfg(test)]
mod tests {
    use super::*;
    use crate::samples::*;

    fn refused(list: &[u8]) -> bool {
        Resolution::read(list) == Err(Refusal::Resolution)
    }

    #[test]
    fn fifteen_lists_are_legal() {
        let bytes = [None, Some(0), Some(1), Some(2), Some(3), Some(255)];
        let mut legal: Vec<Vec<u8>> = Vec::new();
        for number in 0..6_usize.pow(5) {
            let digits = [0, 1, 2, 3, 4].map(|place| number / 6_usize.pow(place) % 6);
            let list: Vec<u8> = digits.iter().filter_map(|digit| bytes[*digit]).collect();
            if !refused(&list) && !legal.contains(&list) {
                legal.push(list);
            }
        }
        legal.sort();
        let mut lists = LISTS.map(<[u8]>::to_vec);
        lists.sort();
        assert_eq!(legal, lists);
    }

    #[test]
    fn a_list_has_one_to_three_bytes() {
        assert!(refused(&[]));
        for count in [4, 5, 6, 255, 256, 257, 258, 259, 65_537, 65_539] {
            let rules = [0, 1, 2].into_iter().cycle();
            assert!(refused(&rules.take(count).collect::<Vec<u8>>()));
        }
    }

    #[test]
    fn no_rule_stands_twice() {
        for rule in 0..3 {
            let other = (rule + 1) % 3;
            assert!(refused(&[rule, rule]));
            assert!(refused(&[rule, rule, other]));
            assert!(refused(&[rule, other, rule]));
            assert!(refused(&[other, rule, rule]));
            assert!(refused(&[rule; 3]));
        }
    }

    #[test]
    fn other_bytes_are_no_rules() {
        for byte in 3..=255 {
            for list in [&[byte][..], &[byte, 0], &[1, byte], &[0, 1, byte]] {
                assert!(refused(list), "{list:?}");
            }
        }
    }

    #[test]
    fn wrong_readings_allow_other_lists() {
        let allowed = |reading, list: &[u8]| Resolution::read_as(reading, list).is_ok();
        for (wrong, list) in [
            (Reading::EmptyAsNone, &[][..]),
            (Reading::FirstThreeBytes, &[0, 1, 2, 0]),
            (Reading::RepeatsAllowed, &[1, 1]),
            (Reading::OtherBytesAllowed, &[3, 1]),
        ] {
            assert!(!allowed(Reading::Paper, list));
            let is_only = |reading: &Reading| allowed(*reading, list) == (*reading == wrong);
            assert!(
                Reading::WRONG_OF_RESOLUTION.iter().all(is_only),
                "{wrong:?}"
            );
        }
    }

    /// Eight policies of few different days, ranks and weights.
    fn some_policies(draws: &mut Draws) -> Vec<Policy> {
        let policy = |_| issued(draws.byte(0, 2).into(), draws.byte(0, 2), draws.byte(1, 3));
        (0..8).map(policy).collect()
    }

    #[test]
    fn of_two_policies_one_goes_before() {
        let mut draws = Draws::new(9);
        let none = Resolution::none();
        let lists = LISTS.map(|list| Resolution::read(list).expect("the list is legal"));
        for resolution in lists.into_iter().chain([none]).cycle().take(800) {
            let policies = some_policies(&mut draws);
            let policies: Vec<Numbered> = policies.iter().enumerate().collect();
            let before = |one, other| resolution.goes_before(one, other);
            for &one in &policies {
                assert!(!before(one, one));
                for &other in policies.iter().filter(|other| other.0 != one.0) {
                    assert!(before(one, other) != before(other, one));
                    let mut behind = policies.iter().filter(|third| before(other, **third));
                    assert!(!before(one, other) || behind.all(|third| before(one, *third)));
                }
            }
        }
    }
}
