//! Contexts: a time and a place.

use crate::base::Base;
use crate::reading::{mixed, Reading};
use crate::records::{ContextClause, ContextCondition, Parameter};

/// A minute, a day and a zone, parameters 0, 1 and 2, and a date, which no
/// condition reads.
#[derive(Clone, Copy, Debug, PartialEq, Eq)]
pub struct Context {
    pub minute: u32,
    pub day: u32,
    pub zone: u32,
    pub date: u32,
}

/// The last date, and the last day that a user can have.
const LAST_DATE: u32 = 65_535;

impl Context {
    pub fn value(self, parameter: Parameter) -> u32 {
        match parameter {
            Parameter::Minute => self.minute,
            Parameter::Day => self.day,
            Parameter::Zone => self.zone,
        }
    }

    /// Whether each parameter and the date lie in their ranges, so that refusal
    /// 11 doesn't apply.
    pub fn in_range(self) -> bool {
        let mut parameters = Parameter::ALL.iter();
        let parameters_fit =
            parameters.all(|&parameter| self.value(parameter) <= u32::from(parameter.last()));
        parameters_fit && self.date <= LAST_DATE
    }
}

impl ContextCondition {
    pub fn holds(&self, at: Context) -> bool {
        let value = at.value(self.parameter);
        self.comparison.holds(value, self.value.into())
    }
}

impl ContextClause {
    pub fn holds(&self, at: Context) -> bool {
        self.conditions.iter().all(|condition| condition.holds(at))
    }
}

impl Base {
    /// The clauses of a context number.
    pub fn clauses_of(&self, number: u8) -> impl Iterator<Item = &ContextClause> {
        let clauses = self.context_clauses.iter();
        clauses.filter(move |clause| clause.context == number)
    }

    /// Whether a context number holds: one of its clauses does. No number
    /// (255) always holds.
    pub fn context_holds(&self, number: Option<u8>, at: Context, reading: Reading) -> bool {
        let Some(number) = number else {
            return true;
        };
        let mut clauses = self.clauses_of(number);
        match reading {
            Reading::MixedContextClauses => mixed(clauses.map(|clause| {
                let conditions = clause.conditions.iter();
                conditions.map(|condition| condition.holds(at)).collect()
            })),
            _ => clauses.any(|clause| clause.holds(at)),
        }
    }
}

#[cfg(test)]
mod tests {
    use super::*;
    use crate::operator::Comparison;
    use crate::samples::{at_minute, condition, context_clause, small_shop};

    fn in_range(minute: u32, day: u32, zone: u32, date: u32) -> bool {
        let at = Context {
            minute,
            day,
            zone,
            date,
        };
        at.in_range()
    }

    #[test]
    fn a_context_ends_at_minute_1439_day_6_zone_255_and_date_65535() {
        assert!(in_range(0, 0, 0, 0));
        assert!(in_range(1439, 6, 255, 65_535));
        assert!(!in_range(1440, 0, 0, 0));
        assert!(!in_range(0, 7, 0, 0));
        assert!(!in_range(0, 0, 256, 0));
        assert!(!in_range(0, 0, 0, 65_536));
    }

    #[test]
    fn large_numbers_are_not_cut() {
        assert!(!in_range(65_536, 0, 0, 0));
        assert!(!in_range(0, 256, 0, 0));
        assert!(!in_range(0, 0, 0, 65_536 + 300));
        assert!(!in_range(u32::MAX, u32::MAX, u32::MAX, u32::MAX));
    }

    #[test]
    fn the_small_shops_context_0_holds_from_540_to_1020() {
        let shop = small_shop();
        let holds = |minute| shop.context_holds(Some(0), at_minute(minute), Reading::Paper);
        assert!(!holds(539) && holds(540));
        assert!(holds(1020) && !holds(1021));
    }

    #[test]
    fn a_number_without_a_clause_never_holds_and_255_always() {
        let shop = small_shop();
        for minute in 0..1440 {
            assert!(!shop.context_holds(Some(1), at_minute(minute), Reading::Paper));
            assert!(shop.context_holds(None, at_minute(minute), Reading::Paper));
        }
    }

    #[test]
    fn a_number_holds_by_any_of_its_clauses() {
        let mut shop = small_shop();
        let night = condition(Parameter::Minute, Comparison::Less, 60);
        shop.context_clauses.push(context_clause(0, &[night]));
        let holds = |minute| shop.context_holds(Some(0), at_minute(minute), Reading::Paper);
        assert!(holds(59) && holds(540));
        assert!(!holds(60));
    }

    #[test]
    fn day_and_zone_are_read_from_their_places() {
        let day = condition(Parameter::Day, Comparison::Equal, 5);
        let zone = condition(Parameter::Zone, Comparison::Equal, 9);
        let clause = context_clause(0, &[day, zone]);
        let holds = |minute, day, zone, date| {
            clause.holds(Context {
                minute,
                day,
                zone,
                date,
            })
        };
        assert!(holds(700, 5, 9, 0));
        assert!(!holds(700, 9, 5, 0));
        assert!(!holds(5, 0, 9, 5));
        assert!(!holds(700, 5, 0, 9));
    }

    #[test]
    fn no_context_depends_on_the_date() {
        let shop = small_shop();
        for minute in [539, 540] {
            for date in [0, 1, 539, 540, 1020, 65_535] {
                let at = Context {
                    date,
                    ..at_minute(minute)
                };
                let holds = shop.context_holds(Some(0), at, Reading::Paper);
                assert_eq!(holds, minute == 540);
            }
        }
    }

    #[test]
    fn a_wrong_reading_adds_up_conditions_of_two_clauses() {
        let mut shop = small_shop();
        let clause = &shop.context_clauses[0].conditions;
        let late = condition(Parameter::Minute, Comparison::Greater, 1438);
        let reversed = context_clause(0, &[late, clause[1].clone()]);
        shop.context_clauses.push(reversed);
        let holds = |minute, reading| shop.context_holds(Some(0), at_minute(minute), reading);
        assert!(!holds(100, Reading::Paper));
        assert!(holds(100, Reading::MixedContextClauses));
    }
}
