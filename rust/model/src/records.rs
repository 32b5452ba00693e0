//! The records of the seven tables. Each `read` gives the record, or nothing
//! where it breaks its rules or names a role or permission that isn't there.

use crate::fields::Fields;
use crate::layout::Layout;
use crate::operator::{Comparison, CONTAINS};
use crate::reading::Reading;
use crate::roles::{Role, RoleSet};

/// An H record: one step from a senior role down to a junior.
#[derive(Clone, Debug, PartialEq, Eq)]
pub struct Edge {
    pub senior: Role,
    pub junior: Role,
}

impl Edge {
    pub(crate) fn read(mut fields: Fields, layout: &Layout) -> Option<Edge> {
        let edge = Edge {
            senior: fields.byte(),
            junior: fields.byte(),
        };
        (edge.senior < edge.junior && layout.has_role(edge.junior)).then_some(edge)
    }
}

/// A U record: the roles that the user's parameter stands for, and the user's
/// days, from the first to the last.
#[derive(Clone, Debug, PartialEq, Eq)]
pub struct User {
    pub roles: RoleSet,
    pub first_day: u16,
    pub last_day: u16,
}

impl User {
    pub(crate) fn read(mut fields: Fields, layout: &Layout) -> Option<User> {
        let user = User {
            roles: RoleSet::from_parameter(fields.long(), layout.roles)?,
            first_day: fields.short(),
            last_day: fields.short(),
        };
        let turned_allowed = layout.reading == Reading::DaysTurned;
        (user.first_day <= user.last_day || turned_allowed).then_some(user)
    }
}

/// A P record; any values are allowed.
#[derive(Clone, Debug, PartialEq, Eq)]
pub struct Permission {
    pub operation: u8,
    pub object: u8,
}

impl Permission {
    pub(crate) fn read(mut fields: Fields) -> Permission {
        Permission {
            operation: fields.byte(),
            object: fields.byte(),
        }
    }
}

/// A K record: conditions on a group that hold together.
#[derive(Clone, Debug, PartialEq, Eq)]
pub struct GroupClause {
    pub permission: u8,
    pub conditions: Vec<GroupCondition>,
}

impl GroupClause {
    pub(crate) fn read(mut fields: Fields, layout: &Layout) -> Option<GroupClause> {
        let permission = fields.byte();
        let count = fields.byte();
        let conditions: [[u8; 3]; 4] = std::array::from_fn(|_| fields.bytes());
        let zeros: [u8; 2] = fields.bytes();
        if !layout.has_permission(permission) || zeros != [0; 2] {
            return None;
        }
        let conditions = in_use(count, &conditions)?
            .iter()
            .map(|condition| GroupCondition::read(condition, layout))
            .collect::<Option<_>>()?;
        Some(GroupClause {
            permission,
            conditions,
        })
    }
}

/// A condition on a group, by its attribute.
#[derive(Clone, Debug, PartialEq, Eq)]
pub enum GroupCondition {
    /// Attributes 0 to 2.
    Compare(Measure, Comparison, u8),
    /// Attribute 3: the role_set contains these roles.
    Contains(RoleSet),
}

/// The attributes that are numbers.
#[derive(Clone, Copy, Debug, PartialEq, Eq)]
pub enum Measure {
    ColNum,
    TotalWeight,
    RoleNum,
}

impl GroupCondition {
    fn read(condition: &[u8; 3], layout: &Layout) -> Option<GroupCondition> {
        let [attribute, operator, value] = *condition;
        let measure = match attribute {
            0 => Measure::ColNum,
            1 => Measure::TotalWeight,
            2 => Measure::RoleNum,
            3 if operator == CONTAINS => {
                let roles = RoleSet::from_bits(value, layout.roles)?;
                return Some(GroupCondition::Contains(roles));
            }
            _ => return None,
        };
        let comparison = Comparison::from_number(operator)?;
        Some(GroupCondition::Compare(measure, comparison, value))
    }
}

/// A C record: conditions on a context that hold together.
#[derive(Clone, Debug, PartialEq, Eq)]
pub struct ContextClause {
    /// The context number that the clause belongs to.
    pub context: u8,
    pub conditions: Vec<ContextCondition>,
}

impl ContextClause {
    pub(crate) fn read(mut fields: Fields, _: &Layout) -> Option<ContextClause> {
        let context = fields.byte();
        let count = fields.byte();
        let conditions: [[u8; 4]; 3] = std::array::from_fn(|_| fields.bytes());
        let zeros: [u8; 2] = fields.bytes();
        if !is_context_number(context) || zeros != [0; 2] {
            return None;
        }
        let conditions = in_use(count, &conditions)?
            .iter()
            .map(ContextCondition::read)
            .collect::<Option<_>>()?;
        Some(ContextClause {
            context,
            conditions,
        })
    }
}

/// A condition on one parameter of a context.
#[derive(Clone, Debug, PartialEq, Eq)]
pub struct ContextCondition {
    pub parameter: Parameter,
    pub comparison: Comparison,
    pub value: u16,
}

/// The parameters of a context.
#[derive(Clone, Copy, Debug, PartialEq, Eq)]
pub enum Parameter {
    Minute,
    Day,
    Zone,
}

impl Parameter {
    pub const ALL: [Parameter; 3] = [Parameter::Minute, Parameter::Day, Parameter::Zone];

    fn from_number(number: u8) -> Option<Parameter> {
        match number {
            0 => Some(Parameter::Minute),
            1 => Some(Parameter::Day),
            2 => Some(Parameter::Zone),
            _ => None,
        }
    }

    /// The largest value in the parameter's range.
    pub fn last(self) -> u16 {
        match self {
            Parameter::Minute => 1439,
            Parameter::Day => 6,
            Parameter::Zone => 255,
        }
    }
}

impl ContextCondition {
    fn read(condition: &[u8; 4]) -> Option<ContextCondition> {
        let mut fields = Fields::of(condition);
        let condition = ContextCondition {
            parameter: Parameter::from_number(fields.byte())?,
            comparison: Comparison::from_number(fields.byte())?,
            value: fields.short(),
        };
        (condition.value <= condition.parameter.last()).then_some(condition)
    }
}

/// An A record: a collaborative authorization policy.
#[derive(Clone, Debug, PartialEq, Eq)]
pub struct Policy {
    pub role: Role,
    pub permission: u8,
    pub weight: u8,
    /// Type 1: the role's seniors inherit the weight.
    pub inheritable: bool,
    /// The context number, or nothing for 255, which always holds.
    pub context: Option<u8>,
    pub rank: u8,
    pub issue_day: u16,
}

/// The context number of a policy that has none.
const NO_CONTEXT: u8 = 255;

impl Policy {
    pub(crate) fn read(mut fields: Fields, layout: &Layout) -> Option<Policy> {
        let policy = Policy {
            role: fields.byte(),
            permission: fields.byte(),
            weight: fields.byte(),
            inheritable: match fields.byte() {
                0 => false,
                1 => true,
                _ => return None,
            },
            context: Some(fields.byte()).filter(|&number| number != NO_CONTEXT),
            rank: fields.byte(),
            issue_day: fields.short(),
        };
        let keeps_rules = layout.has_role(policy.role)
            && layout.has_permission(policy.permission)
            && (1..=5).contains(&policy.weight)
            && policy.context.is_none_or(is_context_number);
        keeps_rules.then_some(policy)
    }
}

/// An X record: two roles or two permissions that exclude each other.
#[derive(Clone, Debug, PartialEq, Eq)]
pub enum Exclusion {
    Roles(Role, Role),
    Permissions(u8, u8),
}

impl Exclusion {
    pub(crate) fn read(mut fields: Fields, layout: &Layout) -> Option<Exclusion> {
        let [kind, a, b] = fields.bytes();
        match kind {
            0 if a < b && layout.has_role(b) => Some(Exclusion::Roles(a, b)),
            1 if a < b && layout.has_permission(b) => Some(Exclusion::Permissions(a, b)),
            _ => None,
        }
    }
}

fn is_context_number(number: u8) -> bool {
    number <= 15
}

/// The first n conditions of a clause. There is at least one, and those
/// beyond n are zero bytes.
fn in_use<const BYTES: usize>(n: u8, conditions: &[[u8; BYTES]]) -> Option<&[[u8; BYTES]]> {
    let (used, unused) = conditions.split_at_checked(usize::from(n))?;
    let rest_is_zero = unused.iter().all(|condition| *condition == [0; BYTES]);
    (!used.is_empty() && rest_is_zero).then_some(used)
}

#[cfg(test)]
mod tests {
    use super::*;

    const CONDITIONS: [[u8; 2]; 3] = [[1, 2], [3, 4], [0, 0]];

    #[test]
    fn a_clause_has_one_condition_or_more() {
        assert_eq!(in_use(0, &CONDITIONS), None);
        assert_eq!(in_use(0, &[[0, 0]]), None);
    }

    #[test]
    fn conditions_beyond_n_are_zero() {
        assert_eq!(in_use(1, &CONDITIONS), None);
        assert_eq!(in_use(2, &CONDITIONS), Some(&CONDITIONS[..2]));
    }

    #[test]
    fn a_clause_has_no_more_conditions_than_fit() {
        assert_eq!(in_use(3, &CONDITIONS), Some(&CONDITIONS[..]));
        assert_eq!(in_use(4, &CONDITIONS), None);
        assert_eq!(in_use(255, &CONDITIONS), None);
    }

    #[test]
    fn a_context_condition_keeps_to_its_parameters_range() {
        let passes = |parameter, value: u16| {
            let [low, high] = value.to_le_bytes();
            ContextCondition::read(&[parameter, 4, low, high]).is_some()
        };
        assert!(passes(0, 1439) && !passes(0, 1440));
        assert!(passes(1, 6) && !passes(1, 7));
        assert!(passes(2, 255) && !passes(2, 256));
        assert!(!passes(3, 0));
    }

    #[test]
    fn a_context_condition_compares() {
        assert!(ContextCondition::read(&[0, 5, 0, 0]).is_some());
        assert!(ContextCondition::read(&[0, CONTAINS, 0, 0]).is_none());
    }
}
