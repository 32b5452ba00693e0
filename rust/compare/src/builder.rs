//! A policy base as records that may hold any values, and its bytes.

use std::ops::Range;

pub const LETTERS: [u8; 4] = *b"LCAQ";

/// Those of the form that bases had before users had days.
pub const OLD_LETTERS: [u8; 4] = *b"LCAP";

/// At most so many records, in table order.
pub const LIMITS: [usize; 7] = [28, 24, 16, 64, 32, 64, 32];

/// The identity codes of roles 0 to 7.
pub const CODES: [u32; 8] = [3, 5, 7, 11, 13, 17, 19, 23];

/// The last day that a user can have, and the last date.
pub const LAST_DAY: u16 = 65_535;

/// A policy's context number for none.
pub const NO_CONTEXT: u8 = 255;

/// The bytes of a base and the place of each of its fields.
#[derive(Default)]
pub struct Image {
    pub bytes: Vec<u8>,
    pub fields: Vec<Range<usize>>,
}

impl Image {
    fn put<const N: usize>(&mut self, field: [u8; N]) {
        let start = self.bytes.len();
        self.bytes.extend(field);
        self.fields.push(start..self.bytes.len());
    }

    fn byte(&mut self, value: u8) {
        self.put([value]);
    }

    fn short(&mut self, value: u16) {
        self.put(value.to_le_bytes());
    }

    fn long(&mut self, value: u32) {
        self.put(value.to_le_bytes());
    }

    /// Writes a table and tells where it lies.
    fn table<T: Record>(&mut self, records: &[T]) -> Place {
        let offset = self.bytes.len() as u16;
        for record in records {
            record.write(self);
        }
        let count = records.len() as u16;
        Place { offset, count }
    }
}

trait Record {
    fn write(&self, image: &mut Image);
}

/// An H record.
#[derive(Clone)]
pub struct Edge {
    pub senior: u8,
    pub junior: u8,
}

impl Edge {
    pub fn new(senior: u8, junior: u8) -> Edge {
        Edge { senior, junior }
    }
}

impl Record for Edge {
    fn write(&self, image: &mut Image) {
        image.byte(self.senior);
        image.byte(self.junior);
    }
}

/// H records: senior, junior.
pub fn edges(pairs: &[(u8, u8)]) -> Vec<Edge> {
    let pairs = pairs.iter();
    pairs.map(|&(a, b)| Edge::new(a, b)).collect()
}

/// A U record.
#[derive(Clone)]
pub struct User {
    pub parameter: u32,
    pub first_day: u16,
    pub last_day: u16,
}

impl User {
    /// A user of all days.
    pub fn always(parameter: u32) -> User {
        User {
            parameter,
            first_day: 0,
            last_day: LAST_DAY,
        }
    }

    pub fn set_days(&mut self, first: u16, last: u16) {
        (self.first_day, self.last_day) = (first, last);
    }
}

impl Record for User {
    fn write(&self, image: &mut Image) {
        image.long(self.parameter);
        image.short(self.first_day);
        image.short(self.last_day);
    }
}

/// A U record of the old form, without days.
struct OldUser(u32);

impl Record for OldUser {
    fn write(&self, image: &mut Image) {
        image.long(self.0);
    }
}

/// A P record.
#[derive(Clone)]
pub struct Permission {
    pub operation: u8,
    pub object: u8,
}

impl Record for Permission {
    fn write(&self, image: &mut Image) {
        image.byte(self.operation);
        image.byte(self.object);
    }
}

/// A condition of a K record: attribute, operator, value.
pub type GroupCondition = (u8, u8, u8);

/// A K record.
#[derive(Clone)]
pub struct GroupClause {
    pub permission: u8,
    pub count: u8,
    pub conditions: [GroupCondition; 4],
    pub zeros: [u8; 2],
}

impl GroupClause {
    /// A clause of these conditions, four at most.
    pub fn new(permission: u8, conditions: &[GroupCondition]) -> GroupClause {
        let mut clause = GroupClause {
            permission,
            count: conditions.len() as u8,
            conditions: [(0, 0, 0); 4],
            zeros: [0; 2],
        };
        clause.conditions[..conditions.len()].copy_from_slice(conditions);
        clause
    }
}

impl Record for GroupClause {
    fn write(&self, image: &mut Image) {
        image.byte(self.permission);
        image.byte(self.count);
        for (attribute, operator, value) in self.conditions {
            image.byte(attribute);
            image.byte(operator);
            image.byte(value);
        }
        image.byte(self.zeros[0]);
        image.byte(self.zeros[1]);
    }
}

/// A condition of a C record: parameter, operator, value.
pub type ContextCondition = (u8, u8, u16);

/// A C record.
#[derive(Clone)]
pub struct ContextClause {
    pub context: u8,
    pub count: u8,
    pub conditions: [ContextCondition; 3],
    pub zeros: [u8; 2],
}

impl ContextClause {
    /// A clause of these conditions, three at most.
    pub fn new(context: u8, conditions: &[ContextCondition]) -> ContextClause {
        let mut clause = ContextClause {
            context,
            count: conditions.len() as u8,
            conditions: [(0, 0, 0); 3],
            zeros: [0; 2],
        };
        clause.conditions[..conditions.len()].copy_from_slice(conditions);
        clause
    }
}

impl Record for ContextClause {
    fn write(&self, image: &mut Image) {
        image.byte(self.context);
        image.byte(self.count);
        for (parameter, operator, value) in self.conditions {
            image.byte(parameter);
            image.byte(operator);
            image.short(value);
        }
        image.byte(self.zeros[0]);
        image.byte(self.zeros[1]);
    }
}

/// An A record.
#[derive(Clone)]
pub struct Policy {
    pub role: u8,
    pub permission: u8,
    pub weight: u8,
    /// The type: 1 if the role's seniors inherit the weight.
    pub inheritable: u8,
    pub context: u8,
    pub rank: u8,
    pub issue_day: u16,
}

impl Policy {
    /// A policy of rank and issue day 0.
    pub fn new(role: u8, permission: u8, weight: u8, inheritable: u8, context: u8) -> Policy {
        Policy {
            role,
            permission,
            weight,
            inheritable,
            context,
            rank: 0,
            issue_day: 0,
        }
    }
}

impl Record for Policy {
    fn write(&self, image: &mut Image) {
        image.byte(self.role);
        image.byte(self.permission);
        image.byte(self.weight);
        image.byte(self.inheritable);
        image.byte(self.context);
        image.byte(self.rank);
        image.short(self.issue_day);
    }
}

/// An X record.
#[derive(Clone)]
pub struct Exclusion {
    pub kind: u8,
    pub a: u8,
    pub b: u8,
}

impl Record for Exclusion {
    fn write(&self, image: &mut Image) {
        image.byte(self.kind);
        image.byte(self.a);
        image.byte(self.b);
    }
}

/// Where the trailer says that a table lies.
pub struct Place {
    pub offset: u16,
    pub count: u16,
}

/// The last 36 bytes of a base.
pub struct Trailer {
    pub places: [Place; 7],
    pub roles: u8,
    pub zeros: [u8; 3],
    pub letters: [u8; 4],
}

impl Trailer {
    fn write(&self, image: &mut Image) {
        for place in &self.places {
            image.short(place.offset);
            image.short(place.count);
        }
        image.byte(self.roles);
        for byte in self.zeros.iter().chain(&self.letters) {
            image.byte(*byte);
        }
    }
}

/// A base by its records.
#[derive(Clone)]
pub struct BaseBuilder {
    pub roles: u8,
    pub hierarchy: Vec<Edge>,
    pub users: Vec<User>,
    pub permissions: Vec<Permission>,
    pub group_clauses: Vec<GroupClause>,
    pub context_clauses: Vec<ContextClause>,
    pub policies: Vec<Policy>,
    pub exclusions: Vec<Exclusion>,
}

impl BaseBuilder {
    /// A base without records.
    pub fn new(roles: u8) -> BaseBuilder {
        BaseBuilder {
            roles,
            hierarchy: Vec::new(),
            users: Vec::new(),
            permissions: Vec::new(),
            group_clauses: Vec::new(),
            context_clauses: Vec::new(),
            policies: Vec::new(),
            exclusions: Vec::new(),
        }
    }

    /// The base with this many permissions, all alike.
    pub fn with_permissions(mut self, count: usize) -> BaseBuilder {
        let permission = Permission {
            operation: 1,
            object: 1,
        };
        self.permissions = vec![permission; count];
        self
    }

    /// The bytes: the tables in order and the trailer that fits them.
    pub fn bytes(&self) -> Vec<u8> {
        self.image().bytes
    }

    pub fn image(&self) -> Image {
        self.image_with(|_| ())
    }

    /// The bytes with a changed trailer.
    pub fn bytes_with(&self, change: impl FnOnce(&mut Trailer)) -> Vec<u8> {
        self.image_with(change).bytes
    }

    fn image_with(&self, change: impl FnOnce(&mut Trailer)) -> Image {
        self.image_of(&self.users, change)
    }

    /// The bytes in the form before users had days, with these letters: of a user
    /// the parameter alone, and a trailer that fits.
    pub fn old_bytes(&self, letters: [u8; 4]) -> Vec<u8> {
        let users = self.users.iter();
        let users: Vec<OldUser> = users.map(|user| OldUser(user.parameter)).collect();
        let image = self.image_of(&users, |trailer| trailer.letters = letters);
        image.bytes
    }

    fn image_of<U: Record>(&self, users: &[U], change: impl FnOnce(&mut Trailer)) -> Image {
        let mut image = Image::default();
        let places = [
            image.table(&self.hierarchy),
            image.table(users),
            image.table(&self.permissions),
            image.table(&self.group_clauses),
            image.table(&self.context_clauses),
            image.table(&self.policies),
            image.table(&self.exclusions),
        ];
        let mut trailer = Trailer {
            places,
            roles: self.roles,
            zeros: [0; 3],
            letters: LETTERS,
        };
        change(&mut trailer);
        trailer.write(&mut image);
        image
    }
}
