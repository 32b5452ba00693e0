//! What a call for a requester is lent: a register, whose statements may hold any
//! values, and a threshold.

/// The most statements of a register.
pub const MOST_STATEMENTS: usize = 256;

/// A statement by which one user trusts another.
#[derive(Clone, Copy, Debug, PartialEq, Eq)]
pub struct Statement {
    pub issuer: u8,
    pub requester: u8,
    pub permission: u8,
    pub trust: u8,
    pub first_day: u16,
    pub last_day: u16,
}

impl Statement {
    /// A statement of all days.
    pub fn always(issuer: u8, requester: u8, permission: u8, trust: u8) -> Statement {
        Statement {
            issuer,
            requester,
            permission,
            trust,
            first_day: 0,
            last_day: u16::MAX,
        }
    }

    /// The statement with these days.
    pub fn on(self, first_day: u16, last_day: u16) -> Statement {
        Statement {
            first_day,
            last_day,
            ..self
        }
    }

    fn from_bytes(bytes: &[u8]) -> Statement {
        let short = |at: usize| u16::from_le_bytes([bytes[at], bytes[at + 1]]);
        Statement::always(bytes[0], bytes[1], bytes[2], bytes[3]).on(short(4), short(6))
    }

    pub fn bytes(&self) -> [u8; 8] {
        let mut bytes = [0; 8];
        bytes[..4].copy_from_slice(&[self.issuer, self.requester, self.permission, self.trust]);
        bytes[4..6].copy_from_slice(&self.first_day.to_le_bytes());
        bytes[6..].copy_from_slice(&self.last_day.to_le_bytes());
        bytes
    }
}

/// The register of these statements.
pub fn register_of(statements: &[Statement]) -> Vec<u8> {
    statements.iter().flat_map(Statement::bytes).collect()
}

/// A register and a threshold.
#[derive(Clone, Debug)]
pub struct Trust {
    pub register: Vec<u8>,
    pub threshold: u32,
}

impl Trust {
    pub fn new(threshold: u32, statements: &[Statement]) -> Trust {
        Trust {
            register: register_of(statements),
            threshold,
        }
    }

    /// The whole statements in the register.
    pub fn statements(&self) -> Vec<Statement> {
        let records = self.register.chunks_exact(8);
        records.map(Statement::from_bytes).collect()
    }
}
