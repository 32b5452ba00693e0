//! Related context numbers: some one context satisfies both.

use crate::base::Base;
use crate::context::Context;
use crate::reading::Reading;
use crate::records::{ContextCondition, Parameter};

/// Context numbers 0 to 15 and, as the last, none (255).
const NUMBERS: usize = 17;

/// Which context numbers are related, by trying every value of each parameter
/// for each pair of clauses.
pub struct Relations([[bool; NUMBERS]; NUMBERS]);

impl Relations {
    pub fn of(base: &Base) -> Relations {
        Relations::by(Reading::Paper, base)
    }

    /// The relations by this reading.
    pub fn by(reading: Reading, base: &Base) -> Relations {
        let clauses: [_; NUMBERS] = std::array::from_fn(|place| clauses_at(base, place));
        Relations(std::array::from_fn(|first| {
            std::array::from_fn(|second| match reading {
                Reading::RelatedToItself if first == second => true,
                Reading::MixedContextClauses => parts_fit(&clauses[first], &clauses[second]),
                _ => some_fit(&clauses[first], &clauses[second]),
            })
        }))
    }

    pub fn related(&self, first: Option<u8>, second: Option<u8>) -> bool {
        self.0[place(first)][place(second)]
    }
}

/// A context number's place in the table.
fn place(number: Option<u8>) -> usize {
    number.map_or(NUMBERS - 1, usize::from)
}

/// A clause, as its conditions.
type Clause<'a> = &'a [ContextCondition];

/// The clauses of the context number at a place. None (255) counts as one
/// clause without conditions.
fn clauses_at(base: &Base, place: usize) -> Vec<Clause<'_>> {
    if place == NUMBERS - 1 {
        return vec![&[]];
    }
    let clauses = base.clauses_of(place as u8);
    clauses.map(|clause| &clause.conditions[..]).collect()
}

/// Whether a clause of the first and one of the second can hold together.
fn some_fit(first: &[Clause], second: &[Clause]) -> bool {
    first
        .iter()
        .any(|one| second.iter().any(|other| fit(one, other)))
}

/// What the wrong reading asks: for each parameter, some clauses that fit.
fn parts_fit(first: &[Clause], second: &[Clause]) -> bool {
    Parameter::ALL.iter().all(|&parameter| {
        first
            .iter()
            .any(|one| second.iter().any(|other| fit_on(parameter, one, other)))
    })
}

/// Whether two clauses can hold together. Each condition reads one parameter,
/// so each parameter can be tried for itself.
fn fit(one: Clause, other: Clause) -> bool {
    let mut parameters = Parameter::ALL.iter();
    parameters.all(|&parameter| fit_on(parameter, one, other))
}

/// Whether some value of a parameter meets the conditions of both on it.
fn fit_on(parameter: Parameter, one: Clause, other: Clause) -> bool {
    let both = one.iter().chain(other);
    let on_it: Vec<&ContextCondition> = both
        .filter(|condition| condition.parameter == parameter)
        .collect();
    let mut values = 0..=u32::from(parameter.last());
    values.any(|value| on_it.iter().all(|condition| condition.allows(value)))
}

impl ContextCondition {
    /// Whether the condition holds if its parameter has this value.
    fn allows(&self, value: u32) -> bool {
        self.comparison.holds(value, self.value.into())
    }
}

/// The same as [`Relations`] says, by trying every minute, day and zone. Slow.
/// No condition reads the date.
pub fn related_by_trial(base: &Base, first: Option<u8>, second: Option<u8>) -> bool {
    let last = |parameter: Parameter| u32::from(parameter.last());
    for day in 0..=last(Parameter::Day) {
        for zone in 0..=last(Parameter::Zone) {
            for minute in 0..=last(Parameter::Minute) {
                let at = Context {
                    minute,
                    day,
                    zone,
                    date: 0,
                };
                let holds = |number| base.context_holds(number, at, Reading::Paper);
                if holds(first) && holds(second) {
                    return true;
                }
            }
        }
    }
    false
}

#[cfg(test)]
mod tests {
    use super::*;
    use crate::operator::Comparison::{self, *};
    use crate::samples::{condition, context_clause, empty_base, Draws};

    use Parameter::{Day, Minute, Zone};

    type Sketch = (Parameter, Comparison, u16);

    /// A base with a clause each for context numbers 0, 1, ..
    fn base(clauses: &[&[Sketch]]) -> Base {
        let mut base = empty_base(1);
        base.context_clauses = (0..)
            .zip(clauses)
            .map(|(number, sketches)| {
                let conditions = sketches.iter().map(|&(p, c, v)| condition(p, c, v));
                context_clause(number, &conditions.collect::<Vec<_>>())
            })
            .collect();
        base
    }

    /// Whether two numbers are related, either way round and by either way.
    fn related(base: &Base, first: Option<u8>, second: Option<u8>) -> bool {
        let relations = Relations::of(base);
        let found = relations.related(first, second);
        assert_eq!(found, relations.related(second, first));
        assert_eq!(found, related_by_trial(base, first, second));
        found
    }

    /// Whether a clause of these conditions is related to itself and to 255.
    fn possible(conditions: &[Sketch]) -> bool {
        let base = base(&[conditions]);
        let found = related(&base, Some(0), Some(0));
        assert_eq!(found, related(&base, Some(0), None));
        found
    }

    #[test]
    fn marked_case_10_touching_minutes() {
        let (first, last) = ((Minute, AtLeast, 600), (Minute, AtMost, 600));
        assert!(related(&base(&[&[last], &[first]]), Some(0), Some(1)));
        let before = (Minute, Less, 600);
        assert!(!related(&base(&[&[before], &[first]]), Some(0), Some(1)));
        assert!(!possible(&[(Minute, Less, 0)]));
    }

    #[test]
    fn a_number_without_a_clause_is_related_to_nothing() {
        let base = base(&[&[(Minute, AtLeast, 0)]]);
        for other in [Some(0), Some(1), Some(15), None] {
            assert!(!related(&base, Some(1), other));
        }
        assert!(related(&base, Some(0), Some(0)));
        assert!(related(&base, None, None));
    }

    #[test]
    fn ranges_have_holes_and_ends() {
        assert!(!possible(&[
            (Day, AtLeast, 5),
            (Day, Unequal, 5),
            (Day, Unequal, 6)
        ]));
        assert!(possible(&[
            (Day, AtLeast, 4),
            (Day, Unequal, 5),
            (Day, Unequal, 6)
        ]));
        assert!(!possible(&[(Zone, Greater, 0), (Zone, Less, 1)]));
        assert!(possible(&[(Zone, Greater, 0), (Zone, Less, 2)]));
        assert!(!possible(&[(Minute, Greater, 1439)]));
        assert!(!possible(&[(Day, Greater, 6)]));
        assert!(!possible(&[(Zone, Greater, 255)]));
        assert!(possible(&[
            (Minute, Equal, 1439),
            (Day, Equal, 6),
            (Zone, Equal, 255)
        ]));
    }

    #[test]
    fn a_hole_may_be_made_by_both_clauses() {
        let low = [(Day, Less, 3), (Day, Unequal, 0), (Day, Unequal, 1)];
        let not_two: [Sketch; 1] = [(Day, Unequal, 2)];
        assert!(!related(&base(&[&low, &not_two]), Some(0), Some(1)));
        assert!(related(&base(&[&low[..2], &not_two]), Some(0), Some(1)));
    }

    #[test]
    fn all_parameters_fit_at_once() {
        let one: [Sketch; 2] = [(Minute, Less, 600), (Zone, Equal, 1)];
        let other: [Sketch; 2] = [(Minute, Less, 700), (Zone, Equal, 2)];
        assert!(!related(&base(&[&one, &other]), Some(0), Some(1)));
        assert!(related(&base(&[&one, &other[..1]]), Some(0), Some(1)));
    }

    /// Day 1 fits the first clause of context 0, zone 2 the second.
    #[test]
    fn fits_in_different_clauses_do_not_join() {
        let mut base = base(&[
            &[(Day, Equal, 1), (Zone, Equal, 1)],
            &[(Day, Equal, 1), (Zone, Equal, 2)],
            &[(Day, Equal, 2), (Zone, Equal, 2)],
        ]);
        base.context_clauses[2].context = 0;
        assert!(!related(&base, Some(0), Some(1)));
        let mixed = Relations::by(Reading::MixedContextClauses, &base);
        assert!(mixed.related(Some(0), Some(1)));
    }

    #[test]
    fn a_later_pair_of_clauses_suffices() {
        let mut base = base(&[&[(Day, Less, 0)], &[(Day, Equal, 1)], &[(Day, Equal, 2)]]);
        base.context_clauses[2].context = 0;
        assert!(!related(&base, Some(0), Some(1)));
        base.context_clauses
            .push(context_clause(1, &[condition(Day, Equal, 2)]));
        assert!(related(&base, Some(0), Some(1)));
    }

    fn random_clause(draws: &mut Draws) -> Vec<Sketch> {
        let count = 1 + draws.below(3);
        let sketch = |_| {
            let parameter = Parameter::ALL[draws.below(3)];
            let near = draws.byte(0, 3).into();
            let value = [near, parameter.last() - near][draws.below(2)];
            let comparison = Comparison::from_number(draws.byte(0, 5)).unwrap();
            (parameter, comparison, value)
        };
        (0..count).map(sketch).collect()
    }

    #[test]
    fn both_ways_agree_on_random_clauses() {
        let mut draws = Draws::new(3);
        let mut seen = [0, 0];
        while seen[0] < 20 {
            let (one, other) = (random_clause(&mut draws), random_clause(&mut draws));
            let found = related(&base(&[&one, &other]), Some(0), Some(1));
            seen[usize::from(found)] += 1;
        }
        assert!(seen[1] > 20);
    }
}
