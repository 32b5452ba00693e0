//! The policy base.

use crate::fields::Fields;
use crate::layout::{Layout, Table};
use crate::reading::Reading;
use crate::records::{ContextClause, Edge, Exclusion, GroupClause, Permission, Policy, User};
use crate::refusal::Refusal;

/// A base that passes refusals 1 to 9.
#[derive(Clone, Debug, PartialEq, Eq)]
pub struct Base {
    /// R, the number of roles.
    pub roles: u8,
    pub hierarchy: Vec<Edge>,
    pub users: Vec<User>,
    pub permissions: Vec<Permission>,
    pub group_clauses: Vec<GroupClause>,
    pub context_clauses: Vec<ContextClause>,
    pub policies: Vec<Policy>,
    pub exclusions: Vec<Exclusion>,
}

impl Base {
    /// The base in these bytes, or the first refusal that applies. Each table
    /// is read to its end before the next one starts.
    pub fn read(bytes: &[u8]) -> Result<Base, Refusal> {
        Base::read_as(Reading::Paper, bytes)
    }

    /// The base by this reading.
    pub fn read_as(reading: Reading, bytes: &[u8]) -> Result<Base, Refusal> {
        let layout = Layout::read(reading, bytes)?;
        Ok(Base {
            roles: layout.roles,
            hierarchy: all(&layout, Table::Hierarchy, Edge::read).ok_or(Refusal::Hierarchy)?,
            users: all(&layout, Table::Users, User::read).ok_or(Refusal::Users)?,
            permissions: layout
                .records(Table::Permissions)
                .map(Permission::read)
                .collect(),
            group_clauses: all(&layout, Table::GroupClauses, GroupClause::read)
                .ok_or(Refusal::GroupClauses)?,
            context_clauses: all(&layout, Table::ContextClauses, ContextClause::read)
                .ok_or(Refusal::ContextClauses)?,
            policies: all(&layout, Table::Policies, Policy::read).ok_or(Refusal::Policies)?,
            exclusions: all(&layout, Table::Exclusions, Exclusion::read)
                .ok_or(Refusal::Exclusions)?,
        })
    }
}

/// All records of a table, or nothing where one of them isn't allowed.
fn all<T>(layout: &Layout, table: Table, read: fn(Fields, &Layout) -> Option<T>) -> Option<Vec<T>> {
    let records = layout.records(table);
    records.map(|record| read(record, layout)).collect()
}

#[cfg(test)]
mod tests {
    use super::*;
    use crate::operator::Comparison;
    use crate::records::{ContextCondition, GroupCondition, Measure, Parameter};
    use crate::roles::RoleSet;
    use crate::samples::{edge, policy, small_shop, user};

    #[test]
    fn the_small_shop_has_three_roles_in_a_chain() {
        let shop = small_shop();
        assert_eq!(shop.roles, 3);
        assert_eq!(shop.hierarchy, [edge(0, 1), edge(1, 2)]);
        assert_eq!(shop.exclusions, []);
    }

    #[test]
    fn the_small_shops_users_hold_one_role_each_and_come_every_day() {
        let users = [[0], [1], [2], [2]].map(|held| user(&held));
        assert_eq!(small_shop().users, users);
        for user in small_shop().users {
            assert_eq!((user.first_day, user.last_day), (0, 65_535));
        }
    }

    #[test]
    fn the_small_shop_has_one_permission_with_one_clause() {
        let shop = small_shop();
        let permission = Permission {
            operation: 1,
            object: 1,
        };
        let clause = GroupClause {
            permission: 0,
            conditions: vec![
                GroupCondition::Compare(Measure::ColNum, Comparison::AtLeast, 2),
                GroupCondition::Compare(Measure::TotalWeight, Comparison::AtLeast, 5),
            ],
        };
        assert_eq!(shop.permissions, [permission]);
        assert_eq!(shop.group_clauses, [clause]);
    }

    #[test]
    fn the_small_shops_context_0_is_540_to_1020() {
        let minute = |comparison, value| ContextCondition {
            parameter: Parameter::Minute,
            comparison,
            value,
        };
        let clause = ContextClause {
            context: 0,
            conditions: vec![
                minute(Comparison::AtLeast, 540),
                minute(Comparison::AtMost, 1020),
            ],
        };
        assert_eq!(small_shop().context_clauses, [clause]);
    }

    #[test]
    fn the_small_shop_has_a_policy_for_each_role() {
        let policies = [
            policy(0, 3, false, None),
            policy(1, 1, true, None),
            policy(2, 1, true, Some(0)),
        ];
        assert_eq!(small_shop().policies, policies);
    }

    /// A base of eight roles with one record in each of five tables.
    #[test]
    fn every_field_is_read_from_its_place() {
        let tables = [
            &111_546_435_u32.to_le_bytes()[..],                   // U
            &[0xff, 0x01, 0x00, 0x02],                            // its days
            &[8, 9, 10, 11],                                      // P
            &[1, 1, 3, 6, 0x81, 0, 0, 0, 0, 0, 0, 0, 0, 0, 0, 0], // K
            &[15, 1, 1, 5, 6, 0, 0, 0, 0, 0, 0, 0, 0, 0, 0, 0],   // C
            &[7, 1, 5, 0, 15, 200, 0x34, 0x12],                   // A
            &[0, 3, 7, 1, 0, 1],                                  // X
        ]
        .concat();
        let places: [u16; 14] = [0, 0, 0, 1, 8, 2, 12, 1, 28, 1, 44, 1, 52, 2];
        let places = places.map(u16::to_le_bytes).concat();
        let bytes = [&tables[..], &places, &[8, 0, 0, 0], b"LCAQ"].concat();
        let base = Base::read(&bytes).expect("the base passes");
        let all_roles = RoleSet::from_bits(255, 8).unwrap();
        let first_and_last = RoleSet::from_bits(0x81, 8).unwrap();
        let user = User {
            roles: all_roles,
            first_day: 0x01ff,
            last_day: 0x0200,
        };
        assert_eq!(base.users, [user]);
        assert_eq!(base.permissions[1].object, 11);
        assert_eq!(
            base.group_clauses[0].conditions,
            [GroupCondition::Contains(first_and_last)]
        );
        assert_eq!(base.context_clauses[0].context, 15);
        assert_eq!(base.policies[0].context, Some(15));
        assert_eq!(base.policies[0].rank, 200);
        assert_eq!(base.policies[0].issue_day, 0x1234);
        assert_eq!(
            base.exclusions,
            [Exclusion::Roles(3, 7), Exclusion::Permissions(0, 1)]
        );
    }
}
