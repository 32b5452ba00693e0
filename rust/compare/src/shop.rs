//! The paper's example, as it is and with a fault.

use crate::builder::*;

/// The small shop: a manager over a buyer over a clerk.
pub fn small_shop() -> BaseBuilder {
    BaseBuilder {
        hierarchy: edges(&[(0, 1), (1, 2)]),
        users: [3, 5, 7, 7].map(User::always).to_vec(),
        group_clauses: vec![GroupClause::new(0, &[(0, 2, 2), (1, 2, 5)])],
        context_clauses: vec![ContextClause::new(0, &[(0, 2, 540), (0, 3, 1020)])],
        policies: vec![
            Policy::new(0, 0, 3, 0, NO_CONTEXT),
            Policy::new(1, 0, 1, 1, NO_CONTEXT),
            Policy::new(2, 0, 1, 1, 0),
        ],
        ..BaseBuilder::new(3).with_permissions(1)
    }
}

/// A base for each of refusals 1 to 9: the small shop with one fault.
pub fn refused_bases() -> [Vec<u8>; 9] {
    let shop = small_shop();
    let with = |change: fn(&mut BaseBuilder)| {
        let mut shop = small_shop();
        change(&mut shop);
        shop.bytes()
    };
    let (kind, a, b) = (0, 0, 3);
    let exclusions = vec![Exclusion { kind, a, b }];
    let with_exclusion = BaseBuilder {
        exclusions,
        ..small_shop()
    };
    [
        vec![0; 35],
        shop.bytes_with(|trailer| trailer.letters = OLD_LETTERS),
        shop.bytes_with(|trailer| trailer.roles = 9),
        with(|shop| shop.hierarchy[1].junior = 3),
        with(|shop| shop.users[3].parameter = 9),
        with(|shop| shop.group_clauses[0].permission = 1),
        with(|shop| shop.context_clauses[0].context = 16),
        with(|shop| shop.policies[2].weight = 6),
        with_exclusion.bytes(),
    ]
}
