//! What resolution lists decide.

use model::{Base, Choice, Choices, Context, Numbered, Reading, Resolution, Rule};

/// What comes up where a list chooses a policy.
#[derive(Clone, Copy, Debug, PartialEq, Eq)]
pub enum Event {
    /// The policy chosen goes before another candidate by rule 0, 1 or 2.
    LaterDay,
    LargerRank,
    SmallerWeight,
    /// No rule tells the two apart.
    TableOrder,
    /// Own and inh choose different policies: one of type 0 goes before.
    Apart,
    /// An inactive policy would go before the one chosen.
    InactiveBefore,
    /// Without the list another policy is chosen.
    OtherThanFirst,
}

impl Event {
    pub const ALL: [Event; 7] = [
        Event::LaterDay,
        Event::LargerRank,
        Event::SmallerWeight,
        Event::TableOrder,
        Event::Apart,
        Event::InactiveBefore,
        Event::OtherThanFirst,
    ];

    fn of_rule(rule: Option<Rule>) -> Event {
        match rule {
            Some(Rule::LaterDay) => Event::LaterDay,
            Some(Rule::LargerRank) => Event::LargerRank,
            Some(Rule::SmallerWeight) => Event::SmallerWeight,
            None => Event::TableOrder,
        }
    }
}

/// The events of all choices for a permission by a legal list.
pub fn events(base: &Base, at: Context, list: &[u8], permission: u8) -> Vec<Event> {
    let resolution = Resolution::read(list).expect("the list is legal");
    let paper = Reading::Paper;
    let both = Both {
        by_list: Choices::by(resolution.clone(), base, at, paper),
        without: Choices::by(Resolution::none(), base, at, paper),
        base,
        at,
        resolution,
        permission,
    };
    let roles = 0..base.roles;
    roles.flat_map(|role| both.of_role(role)).collect()
}

/// The choices by a list and without one.
struct Both<'a> {
    base: &'a Base,
    at: Context,
    resolution: Resolution,
    permission: u8,
    by_list: Choices<'a>,
    without: Choices<'a>,
}

impl Both<'_> {
    fn of_role(&self, role: u8) -> Vec<Event> {
        let mut events = Vec::new();
        let choices = [Choice::Own, Choice::Inh];
        for choice in choices {
            self.add(choice, role, &mut events);
        }
        let [own, inh] = choices.map(|choice| self.chosen(&self.by_list, choice, role));
        if inh.is_some() && own != inh {
            events.push(Event::Apart);
        }
        events
    }

    fn chosen(&self, choices: &Choices, choice: Choice, role: u8) -> Option<usize> {
        let chosen = choices.chosen(choice, role, self.permission);
        chosen.map(|(number, _)| number)
    }

    /// Adds what comes up where a policy of the role is chosen.
    fn add(&self, choice: Choice, role: u8, events: &mut Vec<Event>) {
        let Some(chosen) = self.by_list.chosen(choice, role, self.permission) else {
            return;
        };
        let candidates = self.by_list.candidates(choice, role, self.permission);
        let others = candidates.into_iter().filter(|other| other.0 != chosen.0);
        events.extend(others.map(|other| {
            let rule = self.resolution.deciding_rule(chosen.1, other.1);
            Event::of_rule(rule)
        }));
        if self.has_inactive_before(choice, chosen) {
            events.push(Event::InactiveBefore);
        }
        if self.chosen(&self.without, choice, role) != Some(chosen.0) {
            events.push(Event::OtherThanFirst);
        }
    }

    fn has_inactive_before(&self, choice: Choice, chosen: Numbered) -> bool {
        let mut policies = self.base.policies.iter().enumerate();
        policies.any(|(number, policy)| {
            let rivals = (policy.role, policy.permission) == (chosen.1.role, chosen.1.permission)
                && (choice == Choice::Own || policy.inheritable);
            rivals
                && !self
                    .base
                    .context_holds(policy.context, self.at, Reading::Paper)
                && self.resolution.goes_before((number, policy), chosen)
        })
    }
}

#[cfg(test)]
mod tests {
    use super::*;
    use crate::builder::Policy;
    use crate::questions::at_minute;
    use crate::shop::small_shop;

    /// The events of the small shop early, with these policies of the manager:
    /// issue day, rank, weight, type and context.
    fn events_of(policies: &[(u16, u8, u8, u8, u8)], list: &[u8]) -> Vec<Event> {
        let mut shop = small_shop();
        let policies = policies.iter();
        let policies = policies.map(|&(issue_day, rank, weight, kind, context)| Policy {
            issue_day,
            rank,
            ..Policy::new(0, 0, weight, kind, context)
        });
        shop.policies = policies.collect();
        let base = Base::read(&shop.bytes()).expect("the base passes");
        events(&base, at_minute(480), list, 0)
    }

    #[test]
    fn a_policy_alone_has_no_events() {
        assert_eq!(events_of(&[(1, 1, 1, 1, 255)], &[0, 1, 2]), []);
        assert_eq!(events_of(&[(1, 1, 1, 0, 0)], &[0, 1, 2]), []);
    }

    #[test]
    fn the_rule_that_decides_is_told() {
        let two = [(1, 2, 3, 0, 255), (1, 1, 3, 0, 255)];
        assert_eq!(events_of(&two, &[0, 1, 2]), [Event::LargerRank]);
        assert_eq!(events_of(&two, &[2, 0]), [Event::TableOrder]);
        let three = [(2, 1, 2, 0, 255), (1, 1, 3, 0, 255), (2, 1, 3, 0, 255)];
        let both = [Event::LaterDay, Event::SmallerWeight];
        assert_eq!(events_of(&three, &[0, 1, 2]), both);
    }

    #[test]
    fn what_others_there_are_is_told() {
        let behind = [(1, 1, 3, 1, 255), (2, 1, 3, 0, 255)];
        let apart = [Event::LaterDay, Event::OtherThanFirst, Event::Apart];
        assert_eq!(events_of(&behind, &[0]), apart);
        let inactive = [(1, 1, 3, 0, 255), (2, 1, 3, 0, 0)];
        assert_eq!(events_of(&inactive, &[0]), [Event::InactiveBefore]);
        assert_eq!(events_of(&inactive, &[1]), []);
    }
}
