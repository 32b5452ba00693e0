//! The paper's example and other bases, for the tests.

use crate::base::Base;
use crate::context::Context;
use crate::operator::Comparison;
use crate::records::*;
use crate::register::Statement;
use crate::roles::{Role, RoleSet};

/// The small shop: its tables from byte 0, then the trailer.
#[rustfmt::skip]
pub const SMALL_SHOP: [u8; 130] = [
    // H
    0, 1, 1, 2,
    // U: parameters, days 0 and 65535
    3, 0, 0, 0,  0, 0, 0xff, 0xff,
    5, 0, 0, 0,  0, 0, 0xff, 0xff,
    7, 0, 0, 0,  0, 0, 0xff, 0xff,
    7, 0, 0, 0,  0, 0, 0xff, 0xff,
    // P
    1, 1,
    // K
    0, 2, 0, 2, 2, 1, 2, 5, 0, 0, 0, 0, 0, 0, 0, 0,
    // C: minutes 540 and 1020
    0, 2, 0, 2, 0x1c, 0x02, 0, 3, 0xfc, 0x03, 0, 0, 0, 0, 0, 0,
    // A
    0, 0, 3, 0, 255, 0, 0, 0,
    1, 0, 1, 1, 255, 0, 0, 0,
    2, 0, 1, 1, 0, 0, 0, 0,
    // offsets and counts
    0, 0, 2, 0,  4, 0, 4, 0,  36, 0, 1, 0,  38, 0, 1, 0,
    54, 0, 1, 0,  70, 0, 3, 0,  94, 0, 0, 0,
    // R, zero bytes, letters
    3, 0, 0, 0, b'L', b'C', b'A', b'Q',
];

/// Its users as entries, each in the role held.
pub const MANAGER: [u8; 2] = [0, 0];
pub const BUYER: [u8; 2] = [1, 1];
pub const CLERK: [u8; 2] = [2, 2];
pub const OTHER_CLERK: [u8; 2] = [3, 2];

pub fn small_shop() -> Base {
    Base::read(&SMALL_SHOP).expect("the small shop passes")
}

/// A base of three roles, one permission and eight users with these
/// parameters, each of all days.
pub fn eight_users(parameters: [u32; 8]) -> Vec<u8> {
    eight_ranked_users(&[], parameters)
}

/// The same with these H records.
pub fn eight_ranked_users(hierarchy: &[[u8; 2]], parameters: [u32; 8]) -> Vec<u8> {
    let users = 2 * hierarchy.len() as u16;
    let permissions = users + 64;
    let end = permissions + 2;
    let records = hierarchy.len() as u16;
    let places = [
        [0, records],
        [users, 8],
        [permissions, 1],
        [end, 0],
        [end, 0],
        [end, 0],
        [end, 0],
    ];
    let of_user = |parameter: u32| [parameter.to_le_bytes(), [0, 0, 0xff, 0xff]].concat();
    let user_records = parameters.map(of_user).concat();
    let places = places.as_flattened().iter();
    let places: Vec<u8> = places.flat_map(|place| place.to_le_bytes()).collect();
    let tables = [hierarchy.as_flattened(), &user_records, &[1, 1]].concat();
    [&tables[..], &places, &[3, 0, 0, 0], b"LCAQ"].concat()
}

/// A base without records.
pub fn empty_base(roles: u8) -> Base {
    Base {
        roles,
        hierarchy: vec![],
        users: vec![],
        permissions: vec![],
        group_clauses: vec![],
        context_clauses: vec![],
        policies: vec![],
        exclusions: vec![],
    }
}

/// The date of the samples' contexts. Some users of random bases have days that
/// start or end at it or beside it.
pub const DATE: u16 = 300;

/// A context of day and zone 0 on that date.
pub fn at_minute(minute: u32) -> Context {
    Context {
        minute,
        day: 0,
        zone: 0,
        date: DATE.into(),
    }
}

pub fn edge(senior: Role, junior: Role) -> Edge {
    Edge { senior, junior }
}

/// A user of all days.
pub fn user(roles: &[Role]) -> User {
    let roles = roles.iter().fold(RoleSet::default(), |set, &r| set.with(r));
    User {
        roles,
        first_day: 0,
        last_day: u16::MAX,
    }
}

/// A policy for permission 0.
pub fn policy(role: Role, weight: u8, inheritable: bool, context: Option<u8>) -> Policy {
    Policy {
        role,
        permission: 0,
        weight,
        inheritable,
        context,
        rank: 0,
        issue_day: 0,
    }
}

/// A policy of role 0 for permission 0, of type 0 and in every context, by its
/// issue day, rank and weight.
pub fn issued(issue_day: u16, rank: u8, weight: u8) -> Policy {
    Policy {
        rank,
        issue_day,
        ..policy(0, weight, false, None)
    }
}

/// All lists of one to three different rules.
pub const LISTS: [&[u8]; 15] = [
    &[0],
    &[1],
    &[2],
    &[0, 1],
    &[0, 1, 2],
    &[0, 2],
    &[0, 2, 1],
    &[1, 0],
    &[1, 0, 2],
    &[1, 2],
    &[1, 2, 0],
    &[2, 0],
    &[2, 0, 1],
    &[2, 1],
    &[2, 1, 0],
];

/// A statement of all days for permission 0.
pub fn statement(issuer: u8, requester: u8, trust: u8) -> Statement {
    Statement {
        issuer,
        requester,
        permission: 0,
        trust,
        first_day: 0,
        last_day: u16::MAX,
    }
}

/// The register of these statements.
pub fn statement_bytes(statements: &[Statement]) -> Vec<u8> {
    let bytes = |one: &Statement| {
        let numbers = [one.issuer, one.requester, one.permission, one.trust];
        let days = [one.first_day, one.last_day].map(u16::to_le_bytes);
        [&numbers, days.as_flattened()].concat()
    };
    statements.iter().flat_map(bytes).collect()
}

/// Statements of a base's users for permission 0, most of them to the requester.
pub fn random_statements(draws: &mut Draws, base: &Base, requester: u8) -> Vec<Statement> {
    let last = base.users.len() as u8 - 1;
    let count = draws.below(6 * base.users.len());
    let random_statement = |_| {
        let (first_day, last_day) = random_days(draws);
        let [issuer, other] = [0, 1].map(|_| draws.byte(0, last));
        let requester = [requester, requester, requester, other][draws.below(4)];
        Statement {
            first_day,
            last_day,
            ..statement(issuer, requester, draws.byte(1, 5))
        }
    };
    (0..count).map(random_statement).collect()
}

pub fn condition(parameter: Parameter, comparison: Comparison, value: u16) -> ContextCondition {
    ContextCondition {
        parameter,
        comparison,
        value,
    }
}

pub fn context_clause(context: u8, conditions: &[ContextCondition]) -> ContextClause {
    ContextClause {
        context,
        conditions: conditions.to_vec(),
    }
}

/// A clause for permission 0.
pub fn group_clause(conditions: &[GroupCondition]) -> GroupClause {
    GroupClause {
        permission: 0,
        conditions: conditions.to_vec(),
    }
}

/// Numbers that look random and repeat from run to run.
pub struct Draws(u64);

impl Draws {
    pub fn new(seed: u64) -> Draws {
        Draws(seed)
    }

    pub fn below(&mut self, end: usize) -> usize {
        self.0 ^= self.0 << 13;
        self.0 ^= self.0 >> 7;
        self.0 ^= self.0 << 17;
        (self.0 >> 16) as usize % end
    }

    pub fn byte(&mut self, first: u8, last: u8) -> u8 {
        first + self.below(usize::from(last - first) + 1) as u8
    }

    fn comparison(&mut self) -> Comparison {
        Comparison::from_number(self.byte(0, 5)).expect("operators 0 to 5 compare")
    }
}

/// Some H records, repeats and all.
pub fn random_hierarchy(draws: &mut Draws, roles: u8) -> Vec<Edge> {
    let count = draws.below(2 * usize::from(roles));
    let record = |_| {
        let junior = draws.byte(1, roles - 1);
        edge(draws.byte(0, junior - 1), junior)
    };
    (0..count).map(record).collect()
}

/// A base of one permission with up to so many users and up to four roles. No
/// context but 255.
pub fn random_base(draws: &mut Draws, most_users: usize) -> Base {
    let roles = draws.byte(2, 4);
    let users = most_users - draws.below(2) * draws.below(most_users + 1);
    let clauses = draws.below(4);
    Base {
        permissions: small_shop().permissions,
        hierarchy: random_hierarchy(draws, roles),
        users: (0..users).map(|_| random_user(draws, roles)).collect(),
        policies: (0..6).map(|_| random_policy(draws, roles)).collect(),
        group_clauses: (0..clauses).map(|_| random_clause(draws, roles)).collect(),
        ..empty_base(roles)
    }
}

fn random_user(draws: &mut Draws, roles: u8) -> User {
    let set = RoleSet::from_bits(draws.byte(0, 255) >> (8 - roles), roles);
    let (first_day, last_day) = random_days(draws);
    User {
        roles: set.expect("the roles are there"),
        first_day,
        last_day,
    }
}

/// Mostly days that include the date, all of them or few.
fn random_days(draws: &mut Draws) -> (u16, u16) {
    let days = [
        (0, u16::MAX),
        (0, DATE),
        (DATE, DATE),
        (DATE, u16::MAX),
        (0, DATE - 1),
        (DATE + 1, u16::MAX),
    ];
    days[draws.below(16).saturating_sub(10)]
}

fn random_policy(draws: &mut Draws, roles: u8) -> Policy {
    let inheritable = draws.below(2) == 0;
    policy(
        draws.byte(0, roles - 1),
        draws.byte(1, 5),
        inheritable,
        None,
    )
}

/// The same with many policies of equal role, of few days and ranks, and some in
/// context 0, which never holds.
pub fn random_rivals(draws: &mut Draws, most_users: usize) -> Base {
    let mut base = random_base(draws, most_users);
    let policies = 2 + draws.below(15);
    let last_role = draws.byte(0, base.roles - 1);
    let rival = |_| Policy {
        rank: draws.byte(0, 2),
        issue_day: draws.byte(0, 2).into(),
        context: [None, None, Some(0)][draws.below(3)],
        ..random_policy(draws, last_role + 1)
    };
    base.policies = (0..policies).map(rival).collect();
    base
}

fn random_clause(draws: &mut Draws, roles: u8) -> GroupClause {
    let count = 1 + draws.below(3);
    let condition = |_| random_condition(draws, roles);
    group_clause(&(0..count).map(condition).collect::<Vec<_>>())
}

fn random_condition(draws: &mut Draws, roles: u8) -> GroupCondition {
    let comparison = draws.comparison();
    match draws.below(4) {
        0 => GroupCondition::Compare(Measure::ColNum, comparison, draws.byte(0, 6)),
        1 => GroupCondition::Compare(Measure::TotalWeight, comparison, draws.byte(0, 40)),
        2 => GroupCondition::Compare(Measure::RoleNum, comparison, draws.byte(0, 4)),
        _ => GroupCondition::Contains(RoleSet::default().with(draws.byte(0, roles - 1))),
    }
}
