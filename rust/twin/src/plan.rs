//! Bases by what a report's cost depends on: the users' roles, the hierarchy,
//! policies without context and clauses. Users have all days.

const CODES: [u32; 8] = [3, 5, 7, 11, 13, 17, 19, 23];

/// A condition on a group: attribute, operator, value.
pub type Condition = (u8, u8, u8);

/// A base of eight roles.
#[derive(Clone, Default)]
pub struct Plan {
    pub permissions: u8,
    /// Each user's roles, as a set.
    pub users: Vec<u8>,
    /// Senior and junior.
    pub hierarchy: Vec<(u8, u8)>,
    /// Role, permission, weight and type.
    pub policies: Vec<(u8, u8, u8, u8)>,
    /// Permission and conditions, four at most.
    pub clauses: Vec<(u8, Vec<Condition>)>,
}

impl Plan {
    pub fn bytes(&self) -> Vec<u8> {
        let tables = [
            records(&self.hierarchy, |&(senior, junior)| vec![senior, junior]),
            records(&self.users, |&roles| user(roles)),
            records(&vec![(); self.permissions.into()], |_| vec![1, 1]),
            records(&self.clauses, |(permission, conditions)| {
                clause(*permission, conditions)
            }),
            (Vec::new(), 0),
            records(&self.policies, |&(role, permission, weight, kind)| {
                vec![role, permission, weight, kind, 255, 0, 0, 0]
            }),
            (Vec::new(), 0),
        ];
        let mut bytes = Vec::new();
        let mut trailer = Vec::new();
        for (table, count) in tables {
            trailer.extend((bytes.len() as u16).to_le_bytes());
            trailer.extend((count as u16).to_le_bytes());
            bytes.extend(table);
        }
        bytes.extend(trailer);
        bytes.extend([8, 0, 0, 0]);
        bytes.extend(b"LCAQ");
        bytes
    }
}

/// The bytes of a table and its number of records.
fn records<T>(records: &[T], bytes: impl Fn(&T) -> Vec<u8>) -> (Vec<u8>, usize) {
    (records.iter().flat_map(bytes).collect(), records.len())
}

/// The parameter, day 0 and day 65535.
fn user(roles: u8) -> Vec<u8> {
    let days = [0, 0, 255, 255];
    [parameter(roles).to_le_bytes(), days].concat()
}

/// The product of the roles' codes.
fn parameter(roles: u8) -> u32 {
    let codes = (0..8).zip(CODES).filter(|(role, _)| roles >> role & 1 == 1);
    codes.map(|(_, code)| code).product()
}

fn clause(permission: u8, conditions: &[Condition]) -> Vec<u8> {
    let mut bytes = vec![permission, conditions.len() as u8];
    for &(attribute, operator, value) in conditions {
        bytes.extend([attribute, operator, value]);
    }
    bytes.resize(16, 0);
    bytes
}
