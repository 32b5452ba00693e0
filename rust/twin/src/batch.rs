//! Many decisions on one base in one context. What no query changes is worked out
//! once; then a query is one pass over its entries.

use model::Context;

use crate::acting::acting_roles;
use crate::base::Base;
use crate::clause_masks::{Masks, SETS, SUMS};
use crate::users::{in_days, parameter_of};
use crate::weights::{self, Setting, Weights};
use crate::{groups, MOST};

/// Bytes of a query: a permission, how many entries, and six entries.
const QUERY: usize = 2 + 2 * MOST;

type Query = [u8; QUERY];

/// The most queries of a batch.
const MOST_QUERIES: usize = 1_024;

/// For so many queries the tables take more than they save.
const FEW: usize = 4;

/// Writes a byte for each query, the decision for it alone, or gives the first of
/// refusals 1 to 9, 11 and 28 that applies. Later bytes keep their contents. No
/// refusal writes.
pub fn batch(base: &[u8], at: Context, queries: &[u8], answers: &mut [u8]) -> u8 {
    let base = match Base::read(base) {
        Ok(base) => base,
        Err(refusal) => return refusal,
    };
    if !at.in_range() {
        return 11;
    }
    let (queries, rest) = queries.as_chunks();
    if !rest.is_empty() || MOST_QUERIES < queries.len() || answers.len() < queries.len() {
        return 28;
    }
    let setting = weights::setting(&base, at);
    if queries.len() <= FEW {
        for (query, answer) in queries.iter().zip(answers) {
            *answer = decide_alone(&base, &setting, query);
        }
    } else {
        decide_all(&base, &setting, queries, answers);
    }
    0
}

/// The answer to a query as a decision gives it.
fn decide_alone(base: &Base, setting: &Setting, query: &Query) -> u8 {
    let [permission, count, entries @ ..] = query;
    if base.permissions.len() <= usize::from(*permission) {
        return 10;
    }
    let Some(group) = entries.get(..2 * usize::from(*count)) else {
        return 12;
    };
    let weights = || weights::role_weights(base, setting, *permission);
    groups::group_refusal(base, *permission, setting, |_| false, weights, group)
}

/// The tables lie in this function's frame: a struct of them would be copied.
#[inline(never)]
fn decide_all(base: &Base, setting: &Setting, queries: &[Query], answers: &mut [u8]) {
    let mut words = [UNKNOWN; WORDS];
    fill_words(base, setting, &mut words);
    let weights = weights::all_weights(base, setting);
    let permissions = permissions(base, &weights);
    let (mut entries, mut sums, mut sets) = ([0; 1 + MOST], [0; SUMS], [0; SETS]);
    let mut masks = Masks {
        entries: &mut entries,
        sums: &mut sums,
        sets: &mut sets,
    };
    masks.fill(base, MOST * heaviest(&weights));
    let tables = Tables {
        permissions: &permissions[..base.permissions.len().min(16)],
        words: &words,
        masks,
    };
    for (query, answer) in queries.iter().zip(answers) {
        *answer = tables.decide(query);
    }
}

/// What all queries of a batch are answered by.
struct Tables<'a> {
    /// Those that are there.
    permissions: &'a [Permission],
    words: &'a Words,
    masks: Masks<'a>,
}

struct Permission {
    /// What its roles weigh, or [`NO_WEIGHT`].
    weights: [u32; 8],
    /// Its clauses, bit i for K record i.
    clauses: u64,
}

/// A sum with this in it is above every other one.
const NO_WEIGHT: u32 = SUMS as u32;

/// What there is to say of an entry, at the number that its two bytes are: bits for
/// its user, for what speaks against it, and for its role. Of numbers from here on
/// the role is above 7.
const WORDS: usize = 8 << 8;

type Words = [u64; WORDS];

const USERS: u64 = (1 << 24) - 1;
const INELIGIBLE: u64 = 1 << 24;
const LATE: u64 = 1 << 25;
const UNKNOWN: u64 = 1 << 26;
const FIRST_ROLE: usize = 32;

/// The words of users and roles that are there.
#[inline(never)]
fn fill_words(base: &Base, setting: &Setting, words: &mut Words) {
    let (by_role, _) = words.as_chunks_mut::<256>();
    let by_role = &mut by_role[..usize::from(base.roles)];
    for (u, user) in base.users.iter().enumerate() {
        let acting = acting_roles(parameter_of(user), &setting.juniors);
        let late = if in_days(user, setting.date) { 0 } else { LATE };
        let word = 1 << (u & 31) | late;
        for (r, of_users) in by_role.iter_mut().enumerate() {
            let eligible = acting >> (r & 7) & 1 == 1;
            let fault = if eligible { 0 } else { INELIGIBLE };
            of_users[u & 255] = word | fault | 1 << (FIRST_ROLE + r);
        }
    }
}

#[inline(never)]
fn permissions(base: &Base, weights: &[Weights; 16]) -> [Permission; 16] {
    let weight = |weight: u8| match weight {
        0 => NO_WEIGHT,
        _ => weight.into(),
    };
    let mut permissions = weights.map(|weights| Permission {
        weights: weights.map(weight),
        clauses: 0,
    });
    for (i, clause) in base.clauses.iter().enumerate() {
        permissions[usize::from(clause[0] & 15)].clauses |= 1 << (i & 63);
    }
    permissions
}

fn heaviest(weights: &[Weights; 16]) -> usize {
    let weights = weights.as_flattened().iter();
    weights.fold(0, |most, &weight| most.max(weight)).into()
}

impl Tables<'_> {
    #[inline(always)]
    fn decide(&self, query: &Query) -> u8 {
        let [permission, count, entries @ ..] = query;
        let Some(permission) = self.permissions.get(usize::from(*permission)) else {
            return 10;
        };
        let count = usize::from(*count);
        if count == 0 || MOST < count {
            return 12;
        }
        let (mut seen, mut twice, mut sum) = (0, 0, 0);
        for &entry in &entries.as_chunks().0[..count] {
            let number = usize::from(u16::from_le_bytes(entry));
            let Some(word) = self.words.get(number) else {
                return 13;
            };
            twice |= seen & word;
            seen |= word;
            sum += permission.weights[number >> 8];
        }
        if twice & USERS | seen & (UNKNOWN | INELIGIBLE | LATE) != 0 {
            return fault(twice, seen);
        }
        let Some(by_sum) = self.masks.sums.get(sum as usize) else {
            return 16;
        };
        let roles = (seen >> FIRST_ROLE) as u8;
        let met = self.masks.entries[count] & by_sum & self.masks.sets[usize::from(roles)];
        match met & permission.clauses {
            0 => 17,
            _ => 0,
        }
    }
}

/// The first of refusals 13, 14, 15 and 24 that applies; one does.
#[inline(always)]
fn fault(twice: u64, seen: u64) -> u8 {
    if seen & UNKNOWN != 0 {
        return 13;
    }
    if twice & USERS != 0 {
        return 14;
    }
    match seen & INELIGIBLE {
        0 => 24,
        _ => 15,
    }
}

#[cfg(test)]
mod tests {
    use super::*;
    use crate::draws::*;
    use crate::plan::Plan;

    /// A group's entries behind a permission and their number, which is at times
    /// another; noise behind them.
    fn query(draws: &mut Draws, users: &[u8]) -> Query {
        let group = random_group(draws, users);
        let mut query: Query = std::array::from_fn(|_| draws.byte(0, 25));
        query[0] = number(draws, 0, 4) as u8;
        query[1] = (group.len() / 2) as u8;
        if draws.below(8) == 0 {
            query[1] = [0, 1, 6, 7, 128, 255][draws.below(6)];
        }
        let places = query[2..].iter_mut();
        places.zip(group).for_each(|(place, byte)| *place = byte);
        query
    }

    #[test]
    fn a_batch_is_the_models() {
        let mut draws = Draws(12);
        let mut seen = [0; 25];
        for _ in 0..2_000 {
            let plan = random_plan(&mut draws);
            let base = with_days(&mut draws, plan.bytes());
            let count = [0, 1, FEW, FEW + 1, 20][draws.below(5)];
            let queries: Vec<Query> = (0..count).map(|_| query(&mut draws, &plan.users)).collect();
            let room = count + draws.below(3);
            let (mut by_twin, mut by_model) = (vec![77; room], vec![77; room]);
            let queries = queries.as_flattened();
            assert_eq!(batch(&base, AT, queries, &mut by_twin), 0);
            assert_eq!(model::batch(&base, AT, queries, &mut by_model), 0);
            assert_eq!(by_twin, by_model);
            let answers = by_twin[..count].iter();
            answers.for_each(|&answer| seen[usize::from(answer)] += 1);
        }
        for answer in [0, 10, 12, 13, 14, 15, 24, 16, 17] {
            assert!(seen[answer] > 20, "{seen:?}");
        }
    }

    #[test]
    fn each_answer_is_the_decision_for_its_query() {
        let mut draws = Draws(13);
        let plan = random_plan(&mut draws);
        let base = plan.bytes();
        let queries = [(); MOST_QUERIES].map(|_| query(&mut draws, &plan.users));
        let mut answers = [77; MOST_QUERIES];
        assert_eq!(batch(&base, AT, queries.as_flattened(), &mut answers), 0);
        for (query, answer) in queries.iter().zip(answers) {
            let group = query[2..].get(..2 * usize::from(query[1]));
            let group = group.unwrap_or_default();
            assert_eq!(answer, crate::decide(&base, query[0].into(), AT, group));
        }
    }

    /// Six entries in a role of weight 5, and the clause asks for their sum.
    #[test]
    fn the_highest_sum_is_met() {
        let plan = Plan {
            permissions: 1,
            users: vec![1; 6],
            policies: vec![(0, 0, 5, 0)],
            clauses: vec![(0, vec![(1, 4, 30)])],
            ..Plan::default()
        };
        let six = [0, 6, 0, 0, 1, 0, 2, 0, 3, 0, 4, 0, 5, 0];
        let queries = [six; 1 + FEW].concat();
        let mut answers = [77; 1 + FEW];
        assert_eq!(batch(&plan.bytes(), AT, &queries, &mut answers), 0);
        assert_eq!(answers, [0; 1 + FEW]);
    }

    #[test]
    fn refusals_come_in_order_and_write_nothing() {
        let base = random_plan(&mut Draws(7)).bytes();
        let late = Context { minute: 1440, ..AT };
        let queries = [1; QUERY * (MOST_QUERIES + 1)];
        let refused = |base: &[u8], at: Context, length: usize, room: usize| {
            let mut answers = vec![77; room];
            let refusal = batch(base, at, &queries[..length], &mut answers);
            assert!(refusal == 0 || answers.iter().all(|&byte| byte == 77));
            refusal
        };
        assert_eq!(refused(&base[1..], late, 1, 0), 3);
        assert_eq!(refused(&base, late, 1, 0), 11);
        assert_eq!(refused(&base, late, 0, 0), 11);
        assert_eq!(refused(&base, AT, 0, 0), 0);
        for length in [1, QUERY - 1, QUERY + 1, QUERY * MOST_QUERIES - 1] {
            assert_eq!(refused(&base, AT, length, MOST_QUERIES), 28);
        }
        for count in [1, 2, MOST_QUERIES - 1, MOST_QUERIES] {
            assert_eq!(refused(&base, AT, QUERY * count, count), 0);
            assert_eq!(refused(&base, AT, QUERY * count, count - 1), 28);
        }
        let count = MOST_QUERIES + 1;
        assert_eq!(refused(&base, AT, QUERY * count, count), 28);
    }
}
