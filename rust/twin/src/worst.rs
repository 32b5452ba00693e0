//! Bases found by climbing to cost most in a search over sums and sets of
//! roles. All permissions with policies have the same weights, and no group
//! meets a clause, or only groups of six do.

use crate::plan::{Condition, Plan};

/// Four conditions on the sum of which only the last fails, whatever the group.
pub const LAST_FAILS: [Condition; 4] = [(1, 3, 255), (1, 3, 255), (1, 3, 255), (1, 2, 255)];

/// The same by `!=`, `<`, `!=` and `==`.
const CAPS: [Condition; 4] = [(1, 5, 255), (1, 1, 255), (1, 5, 254), (1, 4, 255)];

/// The same on the number of roles: there are no nine.
const ROLE_NUMS: [Condition; 4] = [(2, 3, 9), (2, 3, 9), (2, 3, 9), (2, 2, 9)];

/// The same on the roles: six entries don't have all eight.
const ROLES: [Condition; 4] = [(3, 6, 0), (3, 6, 0), (3, 6, 0), (3, 6, 255)];

/// The same on the number of roles for all sums but 102, the highest, which
/// only six entries in the heaviest role have.
const HIGHEST_SUM: [Condition; 4] = [(2, 3, 9), (2, 3, 9), (2, 3, 9), (1, 2, 102)];

/// Users, each role's direct juniors, and roles with their weights in the
/// policies of a permission.
#[derive(Clone, Copy)]
struct Shop<'a> {
    users: &'a [u8],
    juniors: [u8; 8],
    policies: &'a [(u8, u8)],
}

/// The roles weigh 17, 14, 12, 9, 8, 3, 4 and 5: of the 3,002 multisets of up
/// to six roles hardly two have the same number, sum and set. Who holds a heavy
/// role stands early or late.
const SPREAD: Shop = Shop {
    users: &[
        3, 15, 15, 23, 28, 16, 152, 208, 192, 112, 96, 224, 56, 224, 148, 206, 18, 93, 116, 54, 3,
        206, 30, 129,
    ],
    juniors: [38, 136, 216, 192, 160, 0, 0, 0],
    policies: &[(7, 5), (5, 3), (6, 4), (1, 5)],
};

/// The same where users have two to four roles: the roles weigh 14, 17, 10,
/// 12, 9, 3, 4 and 5.
const FEW_ROLES: Shop = Shop {
    users: &[
        10, 7, 3, 11, 13, 20, 24, 156, 208, 192, 96, 96, 224, 112, 100, 228, 116, 140, 225, 131,
        156, 7, 48, 224,
    ],
    juniors: [20, 140, 128, 176, 192, 0, 0, 0],
    policies: &[(6, 4), (7, 5), (5, 3), (2, 5)],
};

/// Twice the policies a permission: the roles weigh 38, 28, 23, 24, 19, 9, 4
/// and 5.
const HEAVY: Shop = Shop {
    users: &[
        15, 27, 31, 62, 180, 192, 128, 96, 160, 80, 160, 180, 220, 180, 172, 22, 202, 66, 161, 161,
        205, 27, 232, 205,
    ],
    juniors: [142, 68, 240, 112, 224, 64, 0, 0],
    policies: &[
        (1, 5),
        (6, 4),
        (4, 5),
        (7, 5),
        (3, 5),
        (0, 5),
        (2, 4),
        (5, 5),
    ],
};

/// All of them, with their names.
pub fn all() -> [(&'static str, Plan); 11] {
    [
        ("spread", spread()),
        ("gathered", gathered()),
        ("gathered sums", gathered_sums()),
        ("by roles", by_roles()),
        ("by sums", by_sums()),
        ("capped", capped()),
        ("sixes", sixes()),
        ("few roles", few_roles()),
        ("few users", few_users()),
        ("heavy", heavy()),
        ("dense", dense()),
    ]
}

/// Among the worst: the same policies and four clauses for each permission.
pub fn spread() -> Plan {
    plan(SPREAD, ROLE_NUMS)
}

/// The same with all clauses for one permission.
pub fn gathered() -> Plan {
    Plan {
        clauses: vec![(0, ROLE_NUMS.to_vec()); 64],
        ..spread()
    }
}

/// All clauses for one permission, with conditions on large sums.
pub fn gathered_sums() -> Plan {
    Plan {
        clauses: vec![(0, LAST_FAILS.to_vec()); 64],
        ..heavy()
    }
}

/// The same as the worst with conditions on the roles.
pub fn by_roles() -> Plan {
    plan(SPREAD, ROLES)
}

/// The same with conditions on the sum.
pub fn by_sums() -> Plan {
    plan(SPREAD, LAST_FAILS)
}

/// The same with sums capped by `==`, `<` and `!=`.
pub fn capped() -> Plan {
    plan(SPREAD, CAPS)
}

/// The same with a group of six for each permission, by the last clause and
/// with the highest sum.
pub fn sixes() -> Plan {
    let mut plan = spread();
    for (_, conditions) in &mut plan.clauses[48..] {
        *conditions = HIGHEST_SUM.to_vec();
    }
    plan
}

/// Users of two to four roles each.
pub fn few_roles() -> Plan {
    plan(FEW_ROLES, ROLE_NUMS)
}

/// No more users than a group has, each with every role, and one clause of one
/// condition for each permission: the model has least to do.
pub fn few_users() -> Plan {
    let users = &[255; 6];
    Plan {
        clauses: (0..16).map(|i| (i, vec![ROLE_NUMS[3]])).collect(),
        ..plan(Shop { users, ..SPREAD }, ROLE_NUMS)
    }
}

/// Large sums for half of the permissions, as 64 policies suffice for no more.
pub fn heavy() -> Plan {
    plan(HEAVY, ROLE_NUMS)
}

/// Users who hold every role.
pub fn dense() -> Plan {
    let users = &[255; 24];
    plan(Shop { users, ..SPREAD }, ROLE_NUMS)
}

/// The same policies for as many of 16 permissions as 64 suffice for, and the
/// same clause four times for each.
fn plan(shop: Shop, clause: [Condition; 4]) -> Plan {
    let for_all = (0..16).flat_map(|permission| {
        let policies = shop.policies.iter();
        policies.map(move |&(role, weight)| (role, permission, weight, 1))
    });
    Plan {
        permissions: 16,
        users: shop.users.to_vec(),
        hierarchy: hierarchy(shop.juniors),
        policies: for_all.take(64).collect(),
        clauses: (0..64).map(|i| (i % 16, clause.to_vec())).collect(),
    }
}

fn hierarchy(juniors: [u8; 8]) -> Vec<(u8, u8)> {
    let pairs = (0..8).flat_map(|senior| (0..8).map(move |junior| (senior, junior)));
    pairs
        .filter(|&(senior, junior)| juniors[usize::from(senior)] >> junior & 1 == 1)
        .collect()
}

#[cfg(test)]
mod tests {
    use super::*;
    use model::Context;

    const AT: Context = Context {
        minute: 0,
        day: 0,
        zone: 0,
        date: 0,
    };

    fn expect_numbers(plan: &Plan, number: u8) {
        let base = plan.bytes();
        assert_eq!(model::check(&base), 0);
        for permission in 0..16 {
            assert_eq!(
                model::smallest_by_reach(&base, AT, None, permission),
                number
            );
        }
    }

    #[test]
    fn six_are_needed_or_no_group_suffices() {
        for (name, plan) in all() {
            expect_numbers(&plan, if name == "sixes" { 6 } else { 0 });
        }
    }

    #[test]
    fn each_user_has_two_to_four_roles() {
        let mut users = FEW_ROLES.users.iter();
        assert!(users.all(|roles| (2..=4).contains(&roles.count_ones())));
    }
}
