//! The bases that are measured, besides the paper's example and the ones whose
//! reports cost most.

use compare::builder::*;
use compare::products::product;
use twin::worst::LAST_FAILS;

/// The date of all cases.
pub const DATE: u16 = 900;

/// A shop of a usual size: a manager, buyers, deputies, clerks and trainees
/// (roles 0 to 4) and eight kinds of fields; by day, at weekends and in the
/// back zones other weights hold.
pub fn typical_shop() -> BaseBuilder {
    let at_least = |entries, sum| vec![(0, 2, entries), (1, 2, sum)];
    let clauses = [
        (0, at_least(1, 3)),
        (1, at_least(2, 5)),
        (2, at_least(2, 7)),
        (2, vec![(3, 6, 0b00011), (1, 2, 6)]),
        (3, vec![(2, 2, 3), (1, 2, 9)]),
        (4, vec![(0, 2, 2), (1, 4, 7)]),
        (4, vec![(3, 6, 0b00001)]),
        (5, vec![(0, 2, 4), (1, 1, 9), (2, 2, 2)]),
        (6, vec![(2, 2, 4), (1, 2, 12), (0, 3, 5)]),
        (7, vec![(3, 6, 0b00111), (1, 2, 20)]),
    ];
    let conditions = [
        (0, vec![(0, 2, 540), (0, 3, 1020)]),
        (1, vec![(1, 2, 5)]),
        (1, vec![(1, 3, 0), (0, 0, 720)]),
        (2, vec![(2, 2, 8), (2, 1, 16), (0, 2, 360)]),
    ];
    BaseBuilder {
        hierarchy: edges(&[(0, 1), (0, 2), (1, 3), (2, 3), (3, 4)]),
        users: users(&[1, 2, 2, 6, 4, 12, 8, 8, 8, 24, 16, 16]),
        group_clauses: clauses
            .map(|(permission, conditions)| GroupClause::new(permission, &conditions))
            .to_vec(),
        context_clauses: conditions
            .map(|(context, conditions)| ContextClause::new(context, &conditions))
            .to_vec(),
        policies: typical_policies(),
        exclusions: [(0, 0, 4), (0, 1, 2), (1, 0, 3), (1, 2, 5), (1, 6, 7)]
            .map(|(kind, a, b)| Exclusion { kind, a, b })
            .to_vec(),
        ..BaseBuilder::new(5).with_permissions(8)
    }
}

/// Role, permission, weight, type and context.
fn typical_policies() -> Vec<Policy> {
    let policies = [
        (0, 0, 3, 0, NO_CONTEXT),
        (3, 0, 1, 1, 0),
        (1, 1, 3, 1, NO_CONTEXT),
        (2, 1, 2, 1, 2),
        (0, 2, 4, 0, NO_CONTEXT),
        (1, 2, 3, 1, 0),
        (3, 2, 1, 1, 1),
        (0, 3, 5, 0, NO_CONTEXT),
        (2, 3, 2, 1, NO_CONTEXT),
        (3, 3, 1, 1, NO_CONTEXT),
        (3, 4, 2, 1, NO_CONTEXT),
        (3, 4, 1, 1, 0),
        (1, 4, 3, 0, 0),
        (3, 5, 2, 1, 0),
        (4, 5, 1, 1, NO_CONTEXT),
        (0, 6, 4, 0, NO_CONTEXT),
        (1, 6, 2, 1, NO_CONTEXT),
        (3, 6, 2, 1, 0),
        (4, 6, 1, 1, NO_CONTEXT),
        (2, 7, 3, 1, NO_CONTEXT),
    ];
    policies
        .map(|(role, permission, weight, kind, context)| {
            Policy::new(role, permission, weight, kind, context)
        })
        .to_vec()
}

/// The longest base, 2,460 bytes. Every user has every role, every clause has
/// all its conditions, and of those of permission 0 only the last fails.
pub fn full_base() -> BaseBuilder {
    let pairs = (1..8).flat_map(|junior| (0..junior).map(move |senior| (senior, junior)));
    BaseBuilder {
        hierarchy: edges(&pairs.collect::<Vec<_>>()),
        users: users(&[255; 24]),
        group_clauses: vec![GroupClause::new(0, &LAST_FAILS); 64],
        context_clauses: (0..32)
            .map(|i| ContextClause::new(i % 16, &[(0, 3, 1439), (1, 3, 6), (2, 3, 255)]))
            .collect(),
        policies: (0..64)
            .map(|i| Policy::new(i % 8, 0, 5 - i % 5, 1, i % 16))
            .collect(),
        exclusions: (0..32)
            .map(|i| Exclusion {
                kind: i % 2,
                a: i % 7,
                b: 7,
            })
            .collect(),
        ..BaseBuilder::new(8).with_permissions(16)
    }
}

/// The same where each of the 16 permissions has four of the clauses and four of the
/// policies; all roles have weight.
pub fn mixed_base() -> BaseBuilder {
    let numbers = || (0..64).map(|i| (i % 16, i / 16));
    BaseBuilder {
        group_clauses: numbers()
            .map(|(permission, turn)| GroupClause::new(permission, &mixed_clause(permission, turn)))
            .collect(),
        policies: numbers()
            .map(|(p, turn)| Policy::new(7 - 2 * turn, p, 1 + (p + turn) % 5, 1, p))
            .collect(),
        ..full_base()
    }
}

fn mixed_clause(permission: u8, turn: u8) -> [GroupCondition; 4] {
    let role = 1 << ((permission + turn) % 8);
    match turn {
        0 => [(0, 2, 2), (1, 2, 10), (2, 2, 2), (3, 6, role)],
        1 => [(0, 0, 2), (1, 0, 24), (1, 5, 33), (2, 2, 3)],
        2 => [(0, 4, 4), (1, 2, 12), (1, 3, 60), (2, 5, 1)],
        _ => [(0, 1, 6), (1, 2, 30), (2, 3, 4), (3, 6, role)],
    }
}

/// The same where every user holds role 0 alone, and acts in the others as their
/// senior.
pub fn from_above() -> BaseBuilder {
    BaseBuilder {
        users: users(&[1; 24]),
        ..full_base()
    }
}

/// All policies are of one role and permission and equal by every rule, so that
/// each is compared with the first by all rules.
pub fn rivals() -> BaseBuilder {
    BaseBuilder {
        policies: (0..64)
            .map(|i| Policy {
                rank: 9,
                issue_day: 900,
                ..Policy::new(7, 0, 5, 1, i % 16)
            })
            .collect(),
        ..full_base()
    }
}

/// The same where each goes before all in front of it, by rank.
pub fn overrides() -> BaseBuilder {
    let mut base = rivals();
    for (rank, policy) in (9..).zip(&mut base.policies) {
        policy.rank = rank;
    }
    base
}

/// Users by the sets of their roles of eight, and nothing else.
pub fn users_alone(sets: [u8; 24]) -> BaseBuilder {
    BaseBuilder {
        users: users(&sets),
        ..BaseBuilder::new(8)
    }
}

/// Each user holds one or two of roles 0 to 2.
pub fn low_roles() -> [u8; 24] {
    let sets = [0b001, 0b010, 0b011, 0b100, 0b101, 0b110];
    std::array::from_fn(|user| sets[user % sets.len()])
}

/// The same with a user whose parameter is 0, which every code divides.
pub fn refused(mut base: BaseBuilder, user: usize) -> BaseBuilder {
    base.users[user].parameter = 0;
    base
}

/// The same with a first day above the last in the last user alone.
pub fn refused_by_days(mut base: BaseBuilder) -> BaseBuilder {
    let last = base.users.last_mut().expect("there are users");
    (last.first_day, last.last_day) = (LAST_DAY, LAST_DAY - 1);
    base
}

/// The base where the days of each n-th user end just before the date.
pub fn out_of_date(mut base: BaseBuilder, n: usize) -> BaseBuilder {
    for user in base.users.iter_mut().skip(n - 1).step_by(n) {
        user.last_day = DATE - 1;
    }
    base
}

/// As many conflicts as a base can have, 2,688. Half the policies are for each
/// of two permissions that exclude each other, all for one role and with as
/// different weights and types as there are; the other exclusions are ones of
/// roles that every user holds.
pub fn most_conflicts() -> BaseBuilder {
    let roles = (0..31).map(|_| (0, 0, 1));
    let exclusions = roles.chain([(1, 0, 1)]);
    BaseBuilder {
        policies: (0..64)
            .map(|i| Policy::new(0, i % 2, 1 + i / 2 % 5, i / 10 % 2, i % 16))
            .collect(),
        exclusions: exclusions
            .map(|(kind, a, b)| Exclusion { kind, a, b })
            .collect(),
        ..full_base()
    }
}

/// The same where every user holds role 0 alone, and acts in both roles of each
/// exclusion as their senior.
pub fn conflicts_from_above() -> BaseBuilder {
    let mut base = most_conflicts();
    base.users = users(&[1; 24]);
    let all = base.exclusions.iter_mut();
    let of_roles = all.filter(|exclusion| exclusion.kind == 0);
    for (exclusion, a) in of_roles.zip((1..7).cycle()) {
        (exclusion.a, exclusion.b) = (a, 7);
    }
    base
}

/// The policies name all context numbers, and no two of them are related: each
/// has two clauses, and each clause holds in one zone of its own.
pub fn many_contexts() -> BaseBuilder {
    BaseBuilder {
        context_clauses: (0..32)
            .map(|i| {
                let zone = 2 + 4 * u16::from(i);
                ContextClause::new(i % 16, &[(2, 0, zone), (2, 5, zone + 1), (2, 1, zone + 3)])
            })
            .collect(),
        ..full_base()
    }
}

/// Users of all days by the sets of their roles.
pub fn users(sets: &[u8]) -> Vec<User> {
    let parameters = sets.iter().map(|&set| product(set));
    parameters.map(User::always).collect()
}

#[cfg(test)]
mod tests {
    use super::*;
    use compare::questions::at_minute;
    use compare::{agreed_check, expect_report};
    use model::{Base, Reading, Resolution, Situation};

    #[test]
    fn all_pass_the_check() {
        let bases = [
            full_base(),
            mixed_base(),
            from_above(),
            rivals(),
            overrides(),
            most_conflicts(),
            conflicts_from_above(),
            many_contexts(),
        ];
        for base in bases {
            assert_eq!(base.bytes().len(), 2_460);
            assert_eq!(agreed_check(&base.bytes()), 0);
        }
        assert_eq!(agreed_check(&typical_shop().bytes()), 0);
        assert_eq!(agreed_check(&users_alone(low_roles()).bytes()), 0);
    }

    #[test]
    fn days_are_refused_in_the_last_user_alone() {
        let mut base = refused_by_days(users_alone(low_roles()));
        assert_eq!(agreed_check(&base.bytes()), 5);
        base.users.pop();
        assert_eq!(agreed_check(&base.bytes()), 0);
    }

    #[test]
    fn each_nth_user_is_out_of_date() {
        for n in [2, 6] {
            let base = out_of_date(full_base(), n);
            assert_eq!(agreed_check(&base.bytes()), 0);
            for (user, number) in base.users.iter().zip(1..) {
                assert_eq!(user.last_day < DATE, number % n == 0);
            }
        }
    }

    #[test]
    fn a_typical_shop_has_groups_of_many_sizes() {
        let base = typical_shop().bytes();
        expect_report(&base, at_minute(600), 104, &[1, 2, 2, 3, 1, 4, 4, 0]);
    }

    /// Without a list the first policy is chosen, of rank 9. With another weight
    /// for it, or for the last, which is of rank 72, the weights tell.
    #[test]
    fn by_rank_the_last_of_them_overrides_all_others() {
        for (place, by_rank, without) in [(0, 5, 1), (63, 1, 5)] {
            let mut base = overrides();
            base.policies[place].weight = 1;
            let bytes = base.bytes();
            let base = Base::read(&bytes).expect("the base passes");
            let resolution = Resolution::read(&[0, 1, 2]).expect("the list is legal");
            let by_list = Situation::by(resolution, &base, at_minute(600), Reading::Paper);
            assert_eq!(by_list.own(7, 0), by_rank);
            let no_list = Situation::new(&base, at_minute(600), Reading::Paper);
            assert_eq!(no_list.own(7, 0), without);
        }
    }

    #[test]
    fn they_have_2688_conflicts() {
        for base in [most_conflicts(), conflicts_from_above()] {
            let list = model::conflicts(&base.bytes(), &mut []);
            assert_eq!((list.refusal, list.count), (18, 2_688));
        }
    }

    /// Without the H records the 744 conflicts of kind 3 are gone.
    #[test]
    fn nobody_holds_both_roles_from_above() {
        let mut base = conflicts_from_above();
        base.hierarchy.clear();
        let list = model::conflicts(&base.bytes(), &mut []);
        assert_eq!((list.refusal, list.count), (18, 2_688 - 744));
    }
}
