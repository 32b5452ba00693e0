//! The same by every resolution list. By rule 2 another policy may be chosen once
//! the weight is changed.

use std::io::Write;

use compare::builder::BaseBuilder;
use compare::lists::LEGAL;
use compare::random::Random;
use compare::rivals::rival_base;
use model::{Base, Choice, Choices, Context, Reading, Resolution, Situation};

use crate::shifts::{Group, Pair};

#[test]
fn by_no_list_does_a_sum_shift_by_more_than_the_bound() {
    let mut random = Random::new(171);
    let mut found = Found::default();
    for _ in 0..300 {
        let records = base_with_policies(&mut random);
        let pair = Pair::random(&mut random, &records);
        let groups = pair.groups(&mut random);
        let (contexts, _) = pair.contexts(&mut random, &records);
        let permission = pair.bases[0].policies[pair.policy].permission;
        let other = random.below(records.permissions.len()) as u8;
        for at in contexts {
            for (list, by_list) in LEGAL.into_iter().zip(&mut found.by_lists) {
                by_list.compare(&pair, at, list, [permission, other], &groups);
            }
        }
    }
    found.print();
    found.expect_all();
}

fn base_with_policies(random: &mut Random) -> BaseBuilder {
    let mut bases = std::iter::repeat_with(|| rival_base(random, 8));
    let some = bases.find(|base| !base.policies.is_empty());
    some.expect("most bases have a policy")
}

#[derive(Default)]
struct Found {
    by_lists: [ByList; LEGAL.len()],
}

/// What was found by one list.
#[derive(Default)]
struct ByList {
    sums: usize,
    /// Bounds above 0 that were reached, reached in part, and not at all.
    reached: usize,
    in_part: usize,
    not_at_all: usize,
    /// Choices of another policy once the weight is changed, and shifts there.
    changed: usize,
    shifted: usize,
}

impl ByList {
    /// Tries all groups in a context, for these permissions.
    fn compare(
        &mut self,
        pair: &Pair,
        at: Context,
        list: &[u8],
        permissions: [u8; 2],
        groups: &[Group],
    ) {
        let resolution = Resolution::read(list).expect("the list is legal");
        let by = |base| Situation::by(resolution.clone(), base, at, Reading::Paper);
        let situations = pair.bases.each_ref().map(by);
        let changed = changes(pair, at, &resolution);
        self.changed += usize::from(changed);
        for permission in permissions {
            for group in groups {
                let shift = pair.shift(&situations, at, permission, group);
                self.note(shift, group.bound);
                self.shifted += usize::from(changed && shift > 0);
            }
        }
    }

    fn note(&mut self, shift: u32, bound: u32) {
        self.sums += 1;
        match shift {
            _ if bound == 0 => (),
            0 => self.not_at_all += 1,
            _ if shift < bound => self.in_part += 1,
            _ => self.reached += 1,
        }
    }
}

/// Whether own or inh of the policy's role and permission chooses another
/// policy once the weight is changed.
fn changes(pair: &Pair, at: Context, resolution: &Resolution) -> bool {
    let policy = &pair.bases[0].policies[pair.policy];
    let chosen = |base: &Base, choice| {
        let choices = Choices::by(resolution.clone(), base, at, Reading::Paper);
        let chosen = choices.chosen(choice, policy.role, policy.permission);
        chosen.map(|(number, _)| number)
    };
    let [old, new] = &pair.bases;
    let mut both = [Choice::Own, Choice::Inh].into_iter();
    both.any(|choice| chosen(old, choice) != chosen(new, choice))
}

impl Found {
    /// Prints all of it, also where the tests' output is kept back.
    fn print(&self) {
        let lists = LEGAL.iter().zip(&self.by_lists);
        let lines: Vec<String> = lists
            .map(|(list, found)| {
                format!(
                    "{list:?}: {} sums, bounds above 0 reached {} times, in part {}, \
                     not at all {}, {} other choices, {} shifts there",
                    found.sums,
                    found.reached,
                    found.in_part,
                    found.not_at_all,
                    found.changed,
                    found.shifted
                )
            })
            .collect();
        let text = format!("\n{}\n", lines.join("\n"));
        let printed = std::io::stdout().write_all(text.as_bytes());
        printed.expect("standard output takes it");
    }

    /// Asserts that there was everything by each list. Only by rule 2 does a
    /// weight change the choice.
    fn expect_all(&self) {
        for (list, found) in LEGAL.iter().zip(&self.by_lists) {
            assert!(found.sums >= 20_000, "{list:?}: too few sums");
            let reached = [found.reached, found.in_part, found.not_at_all];
            assert!(
                reached.iter().all(|&times| times > 0),
                "{list:?}: {reached:?}"
            );
            let by_weight = list.contains(&2);
            assert_eq!(found.changed > 0, by_weight, "{list:?}: other choices");
            assert_eq!(found.shifted > 0, by_weight, "{list:?}: shifts there");
        }
    }
}
