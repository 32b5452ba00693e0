//! Resolution lists: which of two policies goes before.

/// A rule by which one of two policies with the same role and permission goes
/// before the other.
#[derive(Clone, Copy, Debug, PartialEq, Eq, Hash)]
pub enum Rule {
    /// 0: the later issue day goes first.
    LaterDay = 0,
    /// 1: the larger rank number goes first.
    LargerRank = 1,
    /// 2: the smaller weight goes first.
    SmallerWeight = 2,
}

impl Rule {
    /// Every rule, by number.
    pub const ALL: [Rule; 3] = [Rule::LaterDay, Rule::LargerRank, Rule::SmallerWeight];

    /// The rule's number, 0 to 2: its byte in a list.
    ///
    /// ```
    /// assert_eq!(release::Rule::SmallerWeight.number(), 2);
    /// ```
    pub fn number(self) -> u8 {
        self as u8
    }

    /// The rule with this number, if there is one.
    ///
    /// ```
    /// use release::Rule;
    ///
    /// assert_eq!(Rule::from_number(1), Some(Rule::LargerRank));
    /// assert_eq!(Rule::from_number(3), None);
    /// ```
    pub fn from_number(number: u8) -> Option<Rule> {
        let mut all = Rule::ALL.into_iter();
        all.find(|rule| rule.number() == number)
    }
}

/// A resolution list: one to three different rules. Of two policies with the
/// same role and permission the first rule that tells them apart decides which
/// goes before, or else table order.
///
/// Every `Resolution` is a list that
/// [`Refusal::Resolution`](crate::Refusal::Resolution) doesn't refuse. There are
/// 15.
///
/// ```
/// use release::{Resolution, Rule};
///
/// let newest = Resolution::by(Rule::LaterDay);
/// assert_eq!(newest.bytes(), [0]);
///
/// let then_lightest = newest.then(Rule::SmallerWeight).expect("two rules");
/// assert_eq!(then_lightest.bytes(), [0, 2]);
/// ```
#[derive(Clone, Copy, Debug, PartialEq, Eq, Hash)]
pub struct Resolution {
    /// The rules' numbers, and then [`UNUSED`].
    bytes: [u8; LONGEST_RESOLUTION],
    count: usize,
}

/// The most bytes that a resolution list can have.
pub const LONGEST_RESOLUTION: usize = 3;

/// In bytes behind a list, so that equal lists have equal bytes.
const UNUSED: u8 = 255;

impl Resolution {
    /// The list of one rule.
    ///
    /// ```
    /// use release::{Resolution, Rule};
    ///
    /// assert_eq!(Resolution::by(Rule::LargerRank).bytes(), [1]);
    /// ```
    pub fn by(rule: Rule) -> Resolution {
        Resolution {
            bytes: [rule.number(), UNUSED, UNUSED],
            count: 1,
        }
    }

    /// The list with one rule more, behind the others; nothing if it has that
    /// rule already.
    ///
    /// ```
    /// use release::{Resolution, Rule};
    ///
    /// let newest = Resolution::by(Rule::LaterDay);
    /// let then_highest = newest.then(Rule::LargerRank).expect("two rules");
    /// assert_eq!(then_highest.bytes(), [0, 1]);
    /// assert_eq!(newest.then(Rule::LaterDay), None);
    /// ```
    pub fn then(mut self, rule: Rule) -> Option<Resolution> {
        if self.bytes().contains(&rule.number()) {
            return None;
        }
        self.bytes[self.count] = rule.number();
        self.count += 1;
        Some(self)
    }

    /// The list of these rules; nothing if there is none or one stands twice.
    ///
    /// ```
    /// use release::{Resolution, Rule};
    ///
    /// let list = Resolution::new(&[Rule::SmallerWeight, Rule::LaterDay]);
    /// assert_eq!(list.expect("two rules").bytes(), [2, 0]);
    ///
    /// assert_eq!(Resolution::new(&[]), None);
    /// assert_eq!(Resolution::new(&[Rule::LaterDay; 2]), None);
    /// ```
    pub fn new(rules: &[Rule]) -> Option<Resolution> {
        let (first, others) = rules.split_first()?;
        let mut others = others.iter();
        others.try_fold(Resolution::by(*first), |list, rule| list.then(*rule))
    }

    /// The list in these bytes, if they are one.
    ///
    /// ```
    /// use release::Resolution;
    ///
    /// let list = Resolution::from_bytes(&[1, 2, 0]).expect("three rules");
    /// assert_eq!(list.bytes(), [1, 2, 0]);
    ///
    /// for no_list in [&[][..], &[3], &[0, 0], &[0, 1, 2, 0]] {
    ///     assert_eq!(Resolution::from_bytes(no_list), None);
    /// }
    /// ```
    pub fn from_bytes(list: &[u8]) -> Option<Resolution> {
        let rules = list.iter().map(|byte| Rule::from_number(*byte));
        let rules: Option<Vec<Rule>> = rules.collect();
        Resolution::new(&rules?)
    }

    /// The list as the library takes it, a byte a rule.
    ///
    /// ```
    /// use release::{Resolution, Rule};
    ///
    /// let list = Resolution::new(&Rule::ALL).expect("three rules");
    /// assert_eq!(list.bytes(), [0, 1, 2]);
    /// ```
    pub fn bytes(&self) -> &[u8] {
        &self.bytes[..self.count]
    }

    /// Its rules, in order.
    ///
    /// ```
    /// use release::{Resolution, Rule};
    ///
    /// let list = Resolution::new(&[Rule::LargerRank, Rule::LaterDay]).expect("two rules");
    /// assert!(list.rules().eq([Rule::LargerRank, Rule::LaterDay]));
    /// ```
    pub fn rules(&self) -> impl Iterator<Item = Rule> + '_ {
        let numbers = self.bytes().iter();
        numbers.map(|number| Rule::from_number(*number).expect("a list has rules alone"))
    }
}

#[cfg(test)]
mod tests {
    use super::*;

    /// All lists of up to four bytes of 0 to 3 and 255.
    fn short_lists() -> Vec<Vec<u8>> {
        let mut lists = vec![vec![]];
        let mut place = 0;
        while lists[place].len() < 4 {
            for byte in [0, 1, 2, 3, 255] {
                lists.push([&lists[place][..], &[byte]].concat());
            }
            place += 1;
        }
        lists
    }

    #[test]
    fn fifteen_lists_can_be_made_and_keep_their_bytes() {
        let mut made = Vec::new();
        for bytes in short_lists() {
            if let Some(list) = Resolution::from_bytes(&bytes) {
                assert_eq!(list.bytes(), bytes);
                let rules: Vec<Rule> = list.rules().collect();
                assert_eq!(Resolution::new(&rules), Some(list));
                assert!(!made.contains(&list));
                made.push(list);
            }
        }
        assert_eq!(made.len(), 15);
    }

    #[test]
    fn a_rule_stands_once() {
        for rule in Rule::ALL {
            let alone = Resolution::by(rule);
            assert_eq!(alone.then(rule), None);
            let longest = Rule::ALL.into_iter().filter(|other| *other != rule);
            let longest: Vec<Rule> = [rule].into_iter().chain(longest).collect();
            let longest = Resolution::new(&longest).expect("three rules");
            for another in Rule::ALL {
                assert_eq!(longest.then(another), None);
            }
        }
        assert_eq!(Resolution::new(&[Rule::LaterDay; 300]), None);
    }

    #[test]
    fn numbers_and_rules_go_both_ways() {
        for number in 0..=255 {
            let rule = Rule::from_number(number);
            assert_eq!(rule.is_some(), number < 3);
            assert!(rule.is_none_or(|rule| rule.number() == number));
        }
    }
}
