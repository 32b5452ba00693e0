//! The conflict list.

use crate::acting::Acting;
use crate::answer::Answer;
use crate::base::Base;
use crate::reading::Reading;
use crate::records::{Exclusion, Policy};
use crate::refusal::Refusal;
use crate::related::Relations;
use crate::roles::{Role, MOST_ROLES};
use crate::seniority::Seniority;

/// A record of the list: kind, first, second.
pub type Conflict = [u8; 3];

/// Writes the list of conflicts; later bytes keep their contents. Refusal 18
/// carries the number of records, and no refusal writes.
pub fn conflicts(base: &[u8], out: &mut [u8]) -> Answer {
    conflicts_as(Reading::Paper, base, out)
}

/// The list by this reading.
pub fn conflicts_as(reading: Reading, base: &[u8], out: &mut [u8]) -> Answer {
    let base = match Base::read_as(reading, base) {
        Ok(base) => base,
        Err(refusal) => return Answer::refused(refusal),
    };
    let list = list_by(reading, &base);
    let bytes = list.concat();
    match out.get_mut(..bytes.len()) {
        Some(part) => part.copy_from_slice(&bytes),
        None => return Answer::refused_with(Refusal::ConflictBuffer, list.len()),
    }
    Answer::done(list.len())
}

/// All conflicts, by kind, then first, then second.
pub fn conflict_list(base: &Base) -> Vec<Conflict> {
    list_by(Reading::Paper, base)
}

fn list_by(reading: Reading, base: &Base) -> Vec<Conflict> {
    let relations = Relations::by(reading, base);
    let cover = Cover {
        seniority: Seniority::of(base),
        reading,
    };
    let policy_conflicts = policy_pairs(base, 1, |one, other| {
        one.role == other.role
            && one.permission == other.permission
            && disagree(reading, one, other)
            && relations.related(one.context, other.context)
    });
    let constraint_conflicts = policy_pairs(base, 2, |one, other| {
        are_exclusive(base, one.permission, other.permission) && cover.shared(one, other)
    });
    let role_conflicts = role_conflicts(reading, base);
    [policy_conflicts, constraint_conflicts, role_conflicts].concat()
}

/// The pairs of policies that conflict, as records of this kind.
fn policy_pairs(
    base: &Base,
    kind: u8,
    conflict: impl Fn(&Policy, &Policy) -> bool,
) -> Vec<Conflict> {
    let mut list = Vec::new();
    for (first, one) in (0..).zip(&base.policies) {
        for (second, other) in (0..).zip(&base.policies) {
            if first < second && conflict(one, other) {
                list.push([kind, first, second]);
            }
        }
    }
    list
}

/// Kind 1 (004, rule 1) is different weight or type.
fn disagree(reading: Reading, one: &Policy, other: &Policy) -> bool {
    let weight = one.weight != other.weight;
    let kind = one.inheritable != other.inheritable;
    match reading {
        Reading::WeightAndType => weight && kind,
        _ => weight || kind,
    }
}

/// Whether two permissions, in either order, form an exclusion of kind 1.
fn are_exclusive(base: &Base, one: u8, other: u8) -> bool {
    base.exclusions.iter().any(|exclusion| match exclusion {
        Exclusion::Permissions(a, b) => [*a, *b] == [one, other] || [*a, *b] == [other, one],
        Exclusion::Roles(..) => false,
    })
}

/// Which roles a policy covers.
struct Cover {
    seniority: Seniority,
    reading: Reading,
}

impl Cover {
    /// Kind 2 (004, definition 15): policies of exclusive permissions with a
    /// role in common. Contexts play no part.
    fn shared(&self, one: &Policy, other: &Policy) -> bool {
        (0..MOST_ROLES).any(|role| self.has(one, role) && self.has(other, role))
    }

    /// A policy covers its role and, if its type is 1, that role's seniors.
    fn has(&self, policy: &Policy, role: Role) -> bool {
        let upwards = policy.inheritable || self.reading == Reading::SeniorsCovered;
        role == policy.role || (upwards && self.seniority.is_senior(role, policy.role))
    }
}

/// Kind 3: a user who may act in both roles of an exclusion of kind 0. Users' days
/// play no part.
fn role_conflicts(reading: Reading, base: &Base) -> Vec<Conflict> {
    let acting = Acting::by(reading, base);
    let stands = |user, a, b| {
        let both = acting.may_act(user, a) && acting.may_act(user, b);
        let holds = |role| base.holds(user, role);
        let opens_both = |held| holds(held) && acting.opens(held, a) && acting.opens(held, b);
        both && match reading {
            Reading::FirstHeld => holds(a),
            Reading::SecondHeld => holds(b),
            Reading::OneHeld => holds(a) || holds(b),
            Reading::OneRoleForBoth => (0..base.roles).any(opens_both),
            _ => true,
        }
    };
    let mut list = Vec::new();
    for user in 0..base.users.len() as u8 {
        for (record, exclusion) in (0..).zip(&base.exclusions) {
            if let Exclusion::Roles(a, b) = *exclusion {
                if stands(user, a, b) {
                    list.push([3, user, record]);
                }
            }
        }
    }
    list
}

#[cfg(test)]
mod tests {
    use super::*;
    use crate::operator::Comparison;
    use crate::records::Parameter;
    use crate::samples::*;
    use crate::seniority::chains;

    /// Three roles in a chain and two permissions that exclude each other.
    fn exclusive(policies: &[(Role, u8, bool)]) -> Base {
        let mut base = small_shop();
        base.permissions.push(base.permissions[0].clone());
        base.exclusions = vec![Exclusion::Permissions(0, 1)];
        base.policies = policies
            .iter()
            .map(|&(role, permission, inheritable)| Policy {
                permission,
                ..policy(role, 1, inheritable, None)
            })
            .collect();
        base
    }

    fn with_policies(policies: &[Policy]) -> Base {
        let mut base = small_shop();
        base.policies = policies.to_vec();
        base
    }

    #[test]
    fn the_small_shop_has_no_conflict() {
        let mut out = [7; 3];
        assert_eq!(conflicts(&SMALL_SHOP, &mut out), Answer::done(0));
        assert_eq!(conflicts(&SMALL_SHOP, &mut []), Answer::done(0));
        assert_eq!(out, [7; 3]);
    }

    #[test]
    fn a_refused_base_carries_0_and_writes_nothing() {
        let mut out = [7; 6];
        let answer = conflicts(&SMALL_SHOP[1..], &mut out);
        assert_eq!(answer, Answer::refused(Refusal::Trailer));
        assert_eq!(out, [7; 6]);
    }

    /// The small shop with its three policies made the buyer's.
    fn three_conflicts() -> [u8; 130] {
        let mut shop = SMALL_SHOP;
        (shop[70], shop[78], shop[86]) = (1, 1, 1);
        (shop[72], shop[80], shop[88]) = (1, 2, 3);
        shop
    }

    #[test]
    fn the_list_is_written_and_later_bytes_are_kept() {
        let mut out = [7; 11];
        let answer = conflicts(&three_conflicts(), &mut out);
        assert_eq!(answer, Answer::done(3));
        assert_eq!(out, [1, 0, 1, 1, 0, 2, 1, 1, 2, 7, 7]);
    }

    #[test]
    fn refusal_18_carries_the_number_and_writes_nothing() {
        let mut out = [7; 9];
        for length in 0..9 {
            let answer = conflicts(&three_conflicts(), &mut out[..length]);
            let expected = Answer::refused_with(Refusal::ConflictBuffer, 3);
            assert_eq!((answer, out), (expected, [7; 9]));
        }
        assert_eq!(conflicts(&three_conflicts(), &mut out), Answer::done(3));
    }

    #[test]
    fn kind_1_is_different_weight_or_type() {
        let like = policy(1, 2, true, None);
        let weight = policy(1, 3, true, None);
        let kind = policy(1, 2, false, None);
        let pair = |other: &Policy| conflict_list(&with_policies(&[like.clone(), other.clone()]));
        assert_eq!(pair(&weight), [[1, 0, 1]]);
        assert_eq!(pair(&kind), [[1, 0, 1]]);
        let rank = Policy {
            rank: 9,
            issue_day: 9,
            ..like.clone()
        };
        assert!(pair(&rank).is_empty());
        assert!(pair(&policy(2, 3, true, None)).is_empty());
    }

    #[test]
    fn kind_1_needs_related_contexts() {
        let pair = |one, other| {
            let mut base = with_policies(&[policy(1, 2, true, one), policy(1, 3, true, other)]);
            let late = condition(Parameter::Minute, Comparison::Greater, 1020);
            base.context_clauses.push(context_clause(1, &[late]));
            conflict_list(&base).len()
        };
        assert_eq!(pair(Some(0), Some(0)), 1);
        assert_eq!(pair(Some(0), None), 1);
        assert_eq!(pair(Some(0), Some(1)), 0);
        assert_eq!(pair(Some(2), None), 0);
        assert_eq!(pair(Some(2), Some(2)), 0);
    }

    #[test]
    fn kind_2_takes_the_exclusion_in_either_order_and_once() {
        let mut base = exclusive(&[(1, 1, false), (1, 0, false)]);
        assert_eq!(conflict_list(&base), [[2, 0, 1]]);
        base.exclusions.push(Exclusion::Permissions(0, 1));
        assert_eq!(conflict_list(&base), [[2, 0, 1]]);
    }

    /// User 0 acts in both roles.
    #[test]
    fn an_exclusion_is_of_roles_or_of_permissions() {
        let mut base = exclusive(&[(1, 1, false), (1, 0, false)]);
        base.exclusions = vec![Exclusion::Roles(0, 1)];
        assert_eq!(conflict_list(&base), [[3, 0, 0]]);
        base.exclusions = vec![Exclusion::Permissions(0, 1)];
        assert_eq!(conflict_list(&base), [[2, 0, 1]]);
    }

    #[test]
    fn kind_2_goes_up_to_seniors_for_type_1_only() {
        let pair = |one, other| conflict_list(&exclusive(&[one, other])).len();
        assert_eq!(pair((0, 0, false), (2, 1, false)), 0);
        assert_eq!(pair((0, 0, false), (2, 1, true)), 1);
        assert_eq!(pair((0, 0, true), (2, 1, false)), 0);
        assert_eq!(pair((1, 0, true), (2, 1, true)), 1);
    }

    #[test]
    fn kind_2_needs_a_common_role() {
        let mut base = exclusive(&[(1, 0, true), (2, 1, true)]);
        base.hierarchy = vec![];
        assert!(conflict_list(&base).is_empty());
        base.hierarchy = vec![edge(0, 1), edge(0, 2)];
        assert_eq!(conflict_list(&base), [[2, 0, 1]]);
    }

    #[test]
    fn kind_2_does_not_look_at_contexts() {
        let mut base = exclusive(&[(1, 0, false), (1, 1, false)]);
        base.policies[0].context = Some(9);
        assert_eq!(conflict_list(&base), [[2, 0, 1]]);
    }

    /// The small shop with these exclusions. Role 0 is over 1 over 2; user 0 holds role
    /// 0, user 1 role 1, users 2 and 3 role 2.
    fn excluding(exclusions: &[Exclusion]) -> Base {
        let mut base = small_shop();
        base.exclusions = exclusions.to_vec();
        base
    }

    /// User 0 acts in roles 1 and 2, users 1 and 3 in all three, user 2 in none.
    #[test]
    fn kind_3_names_the_record_in_the_whole_table() {
        let mut base = exclusive(&[]);
        let roles = Exclusion::Roles(0, 2);
        base.exclusions = vec![Exclusion::Permissions(0, 1), roles.clone(), roles];
        base.users = vec![user(&[1]), user(&[0]), user(&[]), user(&[0, 2])];
        let expected = [[3, 1, 1], [3, 1, 2], [3, 3, 1], [3, 3, 2]];
        assert_eq!(conflict_list(&base), expected);
    }

    #[test]
    fn kind_3_goes_down_the_hierarchy() {
        let manager = excluding(&[Exclusion::Roles(0, 1)]);
        assert_eq!(conflict_list(&manager), [[3, 0, 0]]);
        let over_both = excluding(&[Exclusion::Roles(1, 2)]);
        assert_eq!(conflict_list(&over_both), [[3, 0, 0], [3, 1, 0]]);
        let down_a_chain = excluding(&[Exclusion::Roles(0, 2)]);
        assert_eq!(conflict_list(&down_a_chain), [[3, 0, 0]]);
    }

    /// The clerk, who holds role 2, is below both others.
    #[test]
    fn kind_3_does_not_go_up() {
        let mut base = excluding(&[Exclusion::Roles(0, 1), Exclusion::Roles(1, 2)]);
        base.users = vec![user(&[2]), user(&[1]), user(&[1, 2])];
        assert_eq!(conflict_list(&base), [[3, 1, 1], [3, 2, 1]]);
    }

    #[test]
    fn without_records_kind_3_is_by_roles_held() {
        let mut base = excluding(&[Exclusion::Roles(0, 1), Exclusion::Roles(0, 2)]);
        base.hierarchy = vec![];
        assert!(conflict_list(&base).is_empty());
        base.users.push(user(&[0, 2]));
        assert_eq!(conflict_list(&base), [[3, 4, 1]]);
    }

    /// 0 over 2, 1 over 3. Users 0 and 1 act in one of roles 2 and 3 alone, user 2
    /// in both, each through another role held. User 3 holds one of them and acts
    /// in the other.
    #[test]
    fn kind_3_may_come_from_two_roles_held() {
        let mut base = empty_base(4);
        base.hierarchy = vec![edge(0, 2), edge(1, 3)];
        base.users = vec![user(&[0]), user(&[1]), user(&[0, 1]), user(&[2, 1])];
        base.exclusions = vec![Exclusion::Roles(2, 3)];
        assert_eq!(conflict_list(&base), [[3, 2, 0], [3, 3, 0]]);
    }

    #[test]
    fn kind_3_does_not_look_at_days() {
        let mut base = excluding(&[Exclusion::Roles(1, 2)]);
        for (first_day, last_day) in [(0, 0), (u16::MAX, u16::MAX), (300, 301)] {
            for user in &mut base.users {
                (user.first_day, user.last_day) = (first_day, last_day);
            }
            assert_eq!(conflict_list(&base), [[3, 0, 0], [3, 1, 0]]);
        }
    }

    #[test]
    fn kind_3_is_where_some_chain_leads_to_each_side() {
        let mut draws = Draws::new(10);
        for _ in 0..300 {
            let mut base = random_base(&mut draws, 6);
            let pairs = (1..base.roles).flat_map(|b| (0..b).map(move |a| (a, b)));
            let pairs: Vec<(Role, Role)> = pairs.collect();
            base.policies.clear();
            base.exclusions = pairs.iter().map(|&(a, b)| Exclusion::Roles(a, b)).collect();
            let mut expected = Vec::new();
            for user in 0..base.users.len() as u8 {
                let reaches = |role| {
                    let mut held = (0..8).filter(|&held| base.holds(user, held));
                    held.any(|held| held == role || chains(&base.hierarchy, held, role) > 0)
                };
                for (record, &(a, b)) in (0..).zip(&pairs) {
                    if reaches(a) && reaches(b) {
                        expected.push([3, user, record]);
                    }
                }
            }
            assert_eq!(conflict_list(&base), expected);
        }
    }

    /// User 0 holds role 0 and acts in 1; user 4 holds both.
    #[test]
    fn kinds_come_in_order() {
        let mut base = exclusive(&[(1, 0, true), (1, 1, true), (1, 0, false)]);
        base.exclusions.push(Exclusion::Roles(0, 1));
        base.users.push(user(&[0, 1]));
        let expected = [[1, 0, 2], [2, 0, 1], [2, 1, 2], [3, 0, 1], [3, 4, 1]];
        assert_eq!(conflict_list(&base), expected);
    }

    /// How many conflicts there are by the paper's reading and by this one.
    fn counts(reading: Reading, base: &Base) -> [usize; 2] {
        [Reading::Paper, reading].map(|reading| list_by(reading, base).len())
    }

    #[test]
    fn the_wrong_readings_have_other_lists() {
        let by_weight = with_policies(&[policy(1, 2, true, None), policy(1, 3, true, None)]);
        assert_eq!(counts(Reading::WeightAndType, &by_weight), [1, 0]);
        let no_clause = with_policies(&[policy(1, 2, true, Some(9)), policy(1, 3, true, Some(9))]);
        assert_eq!(counts(Reading::RelatedToItself, &no_clause), [0, 1]);
        let senior = exclusive(&[(0, 0, false), (2, 1, false)]);
        assert_eq!(counts(Reading::SeniorsCovered, &senior), [0, 1]);
    }

    /// 0 over 1 over 2, and an exclusion of each two. User 0 holds role 0, user 1
    /// role 1, user 2 roles 0 and 2, user 3 role 2.
    #[test]
    fn the_wrong_readings_of_kind_3_have_other_lists() {
        let mut base = excluding(&[(0, 1), (0, 2), (1, 2)].map(|(a, b)| Exclusion::Roles(a, b)));
        base.users = vec![user(&[0]), user(&[1]), user(&[0, 2]), user(&[2])];
        let by = |reading| {
            let list = list_by(reading, &base).into_iter();
            list.map(|[_, user, record]| (user, record))
                .collect::<Vec<_>>()
        };
        let of_users_0_and_1 = [(0, 0), (0, 1), (0, 2), (1, 2)];
        let of_user_2 = [(2, 0), (2, 1), (2, 2)];
        let paper = [&of_users_0_and_1[..], &of_user_2].concat();
        assert_eq!(by(Reading::Paper), paper);
        assert_eq!(by(Reading::HeldAlone), [(2, 1)]);
        let direct = [&[(0, 0), (1, 2)][..], &of_user_2].concat();
        assert_eq!(by(Reading::DirectJuniors), direct);
        assert_eq!(by(Reading::SeniorsToo).len(), 12);
        let first_held = [(0, 0), (0, 1), (1, 2), (2, 0), (2, 1)];
        assert_eq!(by(Reading::FirstHeld), first_held);
        assert_eq!(by(Reading::SecondHeld), [(2, 1), (2, 2)]);
        let one_held = [&first_held[..], &[(2, 2)]].concat();
        assert_eq!(by(Reading::OneHeld), one_held);
    }

    /// 0 over 2 and 3, 1 over 4. User 0 holds role 0, user 1 role 1, user 2 both, user 3
    /// roles 1 and 2, user 4 roles 2 and 3.
    #[test]
    fn by_a_wrong_reading_one_role_held_opens_both() {
        let mut base = empty_base(5);
        base.hierarchy = vec![edge(0, 2), edge(0, 3), edge(1, 4)];
        base.users = [&[0][..], &[1], &[0, 1], &[1, 2], &[2, 3]]
            .map(user)
            .to_vec();
        let pairs = [(0, 1), (0, 2), (2, 3), (2, 4)];
        base.exclusions = pairs.map(|(a, b)| Exclusion::Roles(a, b)).to_vec();
        let through_one = [[3, 0, 1], [3, 0, 2], [3, 2, 1], [3, 2, 2]];
        assert_eq!(list_by(Reading::OneRoleForBoth, &base), through_one);
        let through_two = [[3, 2, 0], [3, 2, 3], [3, 3, 3], [3, 4, 2]];
        let mut all = [through_one, through_two].concat();
        all.sort();
        assert_eq!(conflict_list(&base), all);
    }

    #[test]
    fn a_count_does_not_fit_a_byte() {
        let mut base = exclusive(&[]);
        base.policies = (0..64)
            .map(|i| policy(1, 1 + i % 5, i < 32, None))
            .collect();
        base.users = vec![user(&[0, 1]); 24];
        base.exclusions = vec![Exclusion::Roles(0, 1); 32];
        let kind_1 = (0..64_u8).flat_map(|i| (i + 1..64).map(move |j| (i, j)));
        let kind_1 = kind_1.filter(|(i, j)| i % 5 != j % 5 || (*i < 32) != (*j < 32));
        assert_eq!(conflict_list(&base).len(), kind_1.count() + 24 * 32);
    }
}
