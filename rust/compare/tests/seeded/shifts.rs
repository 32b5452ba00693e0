//! What the request proves: if two accepted bases differ only in the weight of
//! one policy, the sums of weights differ by at most the bound, for any bytes as
//! a group, every permission and every context. Sums are the model's.

use std::io::Write;

use compare::agreed_check;
use compare::bounds::{agreed_bound, with_weight, Changed};
use compare::builder::BaseBuilder;
use compare::changes::{acting_group, any_group, base_with_policies};
use compare::questions::{any_context, context_in_range, loose_group};
use compare::random::Random;
use compare::tally::Tally;
use model::{Base, Change, Context, Reading, Situation};

/// What the call answers for the groups that are tried.
const ANSWERS: &[u8] = &[0, 12, 13, 14, 15];

/// All bounds above 0: up to six entries and a difference of up to 4.
const BOUNDS: &[u8] = &[1, 2, 3, 4, 5, 6, 8, 9, 10, 12, 15, 16, 18, 20, 24];

const WRONG: [Reading; 8] = Reading::WRONG_OF_BOUNDS;

/// Whether a wrong reading makes a bound too small. A policy of type 0 shifts no
/// senior, so that its type could be regarded.
fn is_too_small(wrong: Reading) -> bool {
    let never = [
        Reading::SeniorPerChain,
        Reading::TypeRegarded,
        Reading::ChangeFirst,
    ];
    !never.contains(&wrong)
}

#[test]
fn no_sum_shifts_by_more_than_the_bound() {
    let mut random = Random::new(131);
    let mut found = Found::default();
    for _ in 0..1_500 {
        let records = base_with_policies(&mut random);
        for _ in 0..2 {
            compare_sums(&mut random, &records, &mut found);
        }
    }
    found.print();
    found.expect_all();
}

/// Tries a change of one weight with groups of all kinds, in each permission and
/// one that isn't there, and in contexts of all kinds.
fn compare_sums(random: &mut Random, records: &BaseBuilder, found: &mut Found) {
    let pair = Pair::random(random, records);
    let groups = pair.groups(random);
    let (contexts, turns) = pair.contexts(random, records);
    found.turns += usize::from(turns);
    for at in contexts {
        found.active[usize::from(pair.is_active(at))] += 1;
        let situations = pair.bases.each_ref();
        let situations = situations.map(|base| Situation::new(base, at, Reading::Paper));
        for permission in 0..=records.permissions.len() as u8 {
            for group in &groups {
                let shift = pair.shift(&situations, at, permission, group);
                found.shift(group, shift);
            }
        }
    }
}

/// Two bases that differ in the weight of one policy, or don't differ.
pub struct Pair {
    pub policy: usize,
    weights: [u8; 2],
    bytes: [Vec<u8>; 2],
    pub bases: [Base; 2],
}

impl Pair {
    /// A base with policies and the same with one byte replaced, which passes
    /// too.
    pub fn random(random: &mut Random, records: &BaseBuilder) -> Pair {
        let policy = random.below(records.policies.len());
        let weights = [records.policies[policy].weight, random.between(1, 5)];
        let old = records.bytes();
        let new = with_weight(&old, policy, weights[1]);
        let bytes = [old, new];
        let bases = bytes.each_ref().map(|bytes| {
            assert_eq!(agreed_check(bytes), 0);
            Base::read(bytes).expect("the base passes")
        });
        let pair = Pair {
            policy,
            weights,
            bytes,
            bases,
        };
        let changed = pair.change(Reading::Paper).changed_base();
        assert!(changed == pair.bases[1], "{}", pair.described());
        pair
    }

    fn described(&self) -> String {
        let (policy, [old, new], [bytes, _]) = (self.policy, self.weights, &self.bytes);
        format!("policy {policy} from {old} to {new}, base {bytes:?}")
    }

    /// From the first base to the second.
    fn change(&self, reading: Reading) -> Change<'_> {
        let [base, _] = &self.bases;
        let change = Change::by(reading, base, self.policy as u32, self.weights[1].into());
        change.expect("the policy is there, and the weight is one")
    }

    /// What the call answers for these bytes: the same from the second base to
    /// the first.
    fn answer(&self, bytes: &[u8]) -> (u8, u32) {
        let ask = |from: usize, to: usize| {
            let changed = Changed {
                policy: self.policy as u32,
                weight: self.weights[to].into(),
                group: bytes.to_vec(),
            };
            agreed_bound(&self.bytes[from], &changed)
        };
        assert_eq!(ask(0, 1), ask(1, 0));
        ask(0, 1)
    }

    fn group(&self, bytes: Vec<u8>) -> Group {
        let by = |reading| self.change(reading).bound(&bytes) as u32;
        let formula = by(Reading::Paper);
        let (answer, bound) = self.answer(&bytes);
        assert!(answer != 0 || bound == formula);
        Group {
            answer,
            bound: if answer == 0 { bound } else { formula },
            wrong: WRONG.map(by),
            bytes,
        }
    }

    /// Groups sound and damaged, any bytes, long lists and each role alone.
    pub fn groups(&self, random: &mut Random) -> Vec<Group> {
        let [base, _] = &self.bases;
        let change = self.change(Reading::Paper);
        let mut groups = vec![
            acting_group(random, base, Some(&change)).concat(),
            acting_group(random, base, Some(&change)).concat(),
            any_group(random, base, Some(&change)),
            any_group(random, base, None),
            loose_group(random),
            long_group(random, base.roles),
        ];
        let alone = (0..=8).chain([255]);
        groups.extend(alone.map(|role| vec![0, role]));
        groups.into_iter().map(|bytes| self.group(bytes)).collect()
    }

    /// Two of any kind, at times out of range; one in which the policy is active
    /// and one in which it isn't; and two beside each other of which it is active
    /// in one. Whether there are such two.
    pub fn contexts(&self, random: &mut Random, records: &BaseBuilder) -> (Vec<Context>, bool) {
        let mut contexts = vec![any_context(random, records), any_context(random, records)];
        let drawn = std::iter::repeat_with(|| context_in_range(random, records));
        let drawn: Vec<Context> = drawn.take(20).collect();
        for active in [true, false] {
            contexts.extend(drawn.iter().find(|at| self.is_active(**at) == active));
        }
        let turn = drawn.iter().find_map(|at| turn(self, *at));
        contexts.extend(turn.into_iter().flatten());
        (contexts, turn.is_some())
    }

    /// By how much the group's sums differ. It is at most the bound.
    pub fn shift(&self, by: &[Situation; 2], at: Context, permission: u8, group: &Group) -> u32 {
        let sums = by.each_ref().map(|by| by.sum(permission, &group.bytes));
        let [old, new] = sums;
        let shift = old.abs_diff(new);
        assert!(
            shift <= group.bound,
            "{old} and {new}, permission {permission}, {at:?}, {group:?}, {}",
            self.described()
        );
        shift
    }

    /// Whether the policy is active.
    fn is_active(&self, at: Context) -> bool {
        let [base, _] = &self.bases;
        let context = base.policies[self.policy].context;
        base.context_holds(context, at, Reading::Paper)
    }
}

/// Any bytes as a group.
#[derive(Debug)]
pub struct Group {
    bytes: Vec<u8>,
    /// What the call answers.
    answer: u8,
    /// The call's bound, or the request's formula where the call refuses.
    pub bound: u32,
    /// The formula by each of [`WRONG`].
    wrong: [u32; 8],
}

/// 7 to 100 entries of any users, mostly in roles that are there, and at times a
/// byte more.
fn long_group(random: &mut Random, roles: u8) -> Vec<u8> {
    let last = random.pick(&[roles - 1, roles, 8]);
    let mut group = Vec::new();
    for _ in 0..random.between(7, 100) {
        group.extend([random.byte(), random.between(0, last)]);
    }
    if random.chance(2) {
        group.push(random.byte());
    }
    group
}

/// The context and one a minute, a day or a zone away, if the policy is active
/// in one of them alone.
fn turn(pair: &Pair, at: Context) -> Option<[Context; 2]> {
    let [minute, day, zone] = [at.minute, at.day, at.zone].map(|value| value + 1);
    let beside = [
        Context { minute, ..at },
        Context { day, ..at },
        Context { zone, ..at },
    ];
    let turned = |other: &Context| other.in_range() && pair.is_active(*other) != pair.is_active(at);
    let other = beside.into_iter().find(turned)?;
    Some([at, other])
}

/// How often a sum was shifted by how much of its bound.
#[derive(Default)]
struct Found {
    /// All sums by two bases.
    sums: usize,
    /// Bounds above 0, by the call's answer.
    above_0: Tally<16>,
    /// Those of them that were reached.
    reached: Tally<16>,
    /// Bounds that the call gave and that were reached.
    bounds: Tally<25>,
    /// Bounds above 0 of which a part was reached, or nothing.
    in_part: usize,
    not_at_all: usize,
    /// By how many shifts the bound of each of [`WRONG`] was exceeded.
    exceeded: [usize; 8],
    /// Contexts in which the policy isn't active, and in which it is.
    active: [usize; 2],
    /// Contexts beside which that turns.
    turns: usize,
}

impl Found {
    /// Notes by how much the sum of a group differs.
    fn shift(&mut self, group: &Group, shift: u32) {
        self.sums += 1;
        for (exceeded, wrong) in self.exceeded.iter_mut().zip(group.wrong) {
            *exceeded += usize::from(wrong < shift);
        }
        if group.bound == 0 {
            return;
        }
        self.above_0.add(group.answer);
        match shift {
            0 => self.not_at_all += 1,
            _ if shift < group.bound => self.in_part += 1,
            _ => self.reached.add(group.answer),
        }
        if shift == group.bound && group.answer == 0 {
            self.bounds.add(shift as u8);
        }
    }

    /// Prints all of it, also where the tests' output is kept back.
    fn print(&self) {
        let [inactive, active] = self.active;
        let answers = ANSWERS.iter().map(|answer| {
            let (reached, all) = (self.reached.seen(*answer), self.above_0.seen(*answer));
            format!("answer {answer}: {reached} of {all} bounds above 0 reached")
        });
        let bounds = BOUNDS.iter().map(|bound| {
            let seen = self.bounds.seen(*bound);
            format!("bound {bound}: reached {seen} times")
        });
        let wrong = WRONG.iter().zip(self.exceeded);
        let wrong = wrong.map(|(wrong, times)| format!("{wrong:?}: exceeded {times} times"));
        let lines: Vec<String> = std::iter::once(format!("{} sums by two bases", self.sums))
            .chain(answers)
            .chain(bounds)
            .chain([format!(
                "{} bounds reached in part, {} not at all",
                self.in_part, self.not_at_all
            )])
            .chain(wrong)
            .chain([format!(
                "the policy active in {active} contexts, not in {inactive}, {} turns",
                self.turns
            )])
            .collect();
        let text = format!("\n{}\n", lines.join("\n"));
        let printed = std::io::stdout().write_all(text.as_bytes());
        printed.expect("standard output takes it");
    }

    /// Asserts that there were enough sums, and everything among them.
    fn expect_all(&self) {
        assert!(self.sums >= 500_000, "too few sums");
        let of_answers = [("above 0", &self.above_0), ("reached", &self.reached)];
        for (name, tally) in of_answers {
            tally.expect_exactly(&format!("bounds {name}, answer"), ANSWERS);
        }
        self.bounds.expect_exactly("reached: bound", BOUNDS);
        assert!(self.above_0.seen(0) >= 50_000, "too few bounds above 0");
        assert!(self.reached.seen(0) >= 5_000, "too few bounds reached");
        assert!(self.in_part > 0, "no bound reached in part");
        assert!(self.not_at_all > 0, "no bound without a shift");
        for (wrong, times) in WRONG.into_iter().zip(self.exceeded) {
            let exceeded = times > 0;
            assert_eq!(exceeded, is_too_small(wrong), "{wrong:?}: {times} times");
        }
        let [inactive, active] = self.active;
        assert!(
            active > 0 && inactive > 0,
            "active {active}, not {inactive}"
        );
        assert!(self.turns > 0, "no turn from active to not");
    }
}
