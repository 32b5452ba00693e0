//! Registers of 256 statements, with a threshold.

use compare::trust::{Statement, Trust, MOST_STATEMENTS};
use model::Base;

use crate::bases::DATE;

/// The threshold and the requester of all cases.
const THRESHOLD: u8 = 3;
pub const REQUESTER: u32 = 0;

/// A register with that threshold.
pub fn lent(register: Vec<u8>) -> Trust {
    Trust {
        register,
        threshold: THRESHOLD.into(),
    }
}

/// Of each permission two thirds of the others vouch for the requester, 16 at most:
/// other ones from one permission to the next. As many statements as are left name
/// another requester, have too little trust or are out of date.
pub fn trust(base: &[u8]) -> Trust {
    let users = Base::read(base).expect("the base passes").users.len();
    let count = (2 * (users - 1)).div_ceil(3).min(16);
    trust_of(base, count)
}

/// The same where so many vouch.
pub fn trust_of(base: &[u8], count: usize) -> Trust {
    let base = Base::read(base).expect("the base passes");
    let (users, requester) = (base.users.len() as u8, REQUESTER as u8);
    let others: Vec<u8> = (0..users).filter(|&user| user != requester).collect();
    let statement = |i: usize| {
        let (permission, turn) = (i % base.permissions.len(), i / base.permissions.len());
        let issuer = others[(permission + turn) % others.len()];
        let trust = THRESHOLD + (turn % 3) as u8;
        let vouches = Statement::always(issuer, requester, permission as u8, trust);
        match turn < count {
            true => vouches,
            false => in_vain(vouches, turn, users),
        }
    };
    let all: Vec<Statement> = (0..MOST_STATEMENTS).map(statement).collect();
    Trust::new(THRESHOLD.into(), &all)
}

/// The statement with one of three faults.
fn in_vain(statement: Statement, fault: usize, users: u8) -> Statement {
    match fault % 3 {
        0 => Statement {
            requester: (statement.requester + 1) % users,
            ..statement
        },
        1 => Statement {
            trust: THRESHOLD - 1,
            ..statement
        },
        _ => statement.on(0, DATE - 1),
    }
}

#[cfg(test)]
mod tests {
    use super::*;
    use crate::bases::{full_base, typical_shop};
    use compare::shop::small_shop;
    use compare::ways::{Link, Way};

    /// The users who vouch for user 0, by permission.
    fn vouching(base: &[u8]) -> Vec<Vec<u8>> {
        let trust = trust(base);
        assert_eq!(trust.register.len(), 2_048);
        let statements = trust.statements();
        let base = Base::read(base).expect("the base passes");
        let vouches = |user: u8, permission: u8| {
            let link = Link {
                user,
                requester: 0,
                permission,
                date: DATE.into(),
                threshold: THRESHOLD.into(),
            };
            let ways = link.ways(&statements);
            ways.into_iter().any(Way::is_vouched)
        };
        let users = 0..base.users.len() as u8;
        let of = |permission| users.clone().filter(move |&user| vouches(user, permission));
        (0..base.permissions.len() as u8)
            .map(|permission| of(permission).collect())
            .collect()
    }

    #[test]
    fn two_thirds_of_the_others_vouch() {
        assert_eq!(vouching(&small_shop().bytes()), [[1, 2]]);
        let typical = vouching(&typical_shop().bytes());
        assert_eq!(typical.len(), 8);
        assert_eq!(typical[0], [1, 2, 3, 4, 5, 6, 7, 8]);
        assert_eq!(typical[4], [1, 5, 6, 7, 8, 9, 10, 11]);
        let full = vouching(&full_base().bytes());
        assert_eq!(full.len(), 16);
        assert!(full.iter().all(|users| users.len() == 16));
        assert!(full.windows(2).all(|pair| pair[0] != pair[1]));
    }
}
