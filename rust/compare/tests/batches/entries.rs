//! How many entries of a query count: 1 to 6, and 12 for any other number.

use crate::setups::*;
use compare::batches::query;
use compare::builder::*;

/// Seven users who hold the only role, which weighs 1; a group is granted with so
/// many entries.
fn wanting(entries: u8) -> BaseBuilder {
    BaseBuilder {
        users: vec![User::always(3); 7],
        group_clauses: vec![GroupClause::new(0, &[(0, 4, entries)])],
        policies: vec![Policy::new(0, 0, 1, 0, NO_CONTEXT)],
        ..BaseBuilder::new(1).with_permissions(1)
    }
}

/// Six entries of different users.
const SIX: [[u8; 2]; 6] = [[6, 0], [0, 0], [5, 0], [2, 0], [4, 0], [1, 0]];

#[test]
fn as_many_entries_as_counted_are_the_group() {
    for wanted in 0..=8 {
        let queries = [1, 2, 3, 4, 5, 6].map(|count| counting(count, query(0, &SIX, 0)));
        let answers = [1, 2, 3, 4, 5, 6].map(|count| if count == wanted { 0 } else { 17 });
        expect(&wanting(wanted), &queries, &answers);
    }
}

/// Six entries are granted, seven would be where the condition asks for seven.
#[test]
fn no_entry_and_more_than_six_get_12() {
    for wanted in [0, 6, 7] {
        let counts: Vec<u8> = (7..=255).chain([0]).collect();
        let queries = counts
            .iter()
            .map(|count| counting(*count, query(0, &SIX, 0)));
        let queries: Vec<_> = queries.collect();
        expect(&wanting(wanted), &queries, &vec![12; queries.len()]);
        for query in queries {
            expect(&wanting(wanted), &[query], &[12]);
        }
    }
}

/// Each of them is a fault, which 12 goes before.
#[test]
fn bad_entries_and_12() {
    for entries in [[[9, 9]; 6], [[0, 0]; 6], [[0, 1]; 6]] {
        for count in [0, 7, 8, 128, 254, 255] {
            expect(
                &wanting(1),
                &[counting(count, query(0, &entries, 0))],
                &[12],
            );
        }
    }
}

/// The last of the entries that count is a fault of its own, at each place.
#[test]
fn the_last_entry_that_counts_is_looked_at() {
    for count in 1..=6_usize {
        for (fault, answer) in [([7, 0], 13), ([3, 1], 13), ([255, 255], 13)] {
            let mut entries = SIX;
            entries[count - 1] = fault;
            let query = query(0, &entries, 0);
            let up_to = |count: usize| counting(count as u8, query);
            let before: Vec<_> = (1..count).map(up_to).collect();
            expect(&wanting(9), &before, &vec![17; before.len()]);
            expect(&wanting(9), &[up_to(count)], &[answer]);
        }
        if count > 1 {
            let mut entries = SIX;
            entries[count - 1] = entries[0];
            let query = query(0, &entries, 0);
            let counts = [count as u8 - 1, count as u8];
            expect(
                &wanting(9),
                &counts.map(|count| counting(count, query)),
                &[17, 14],
            );
        }
    }
}

#[test]
fn the_order_of_entries_does_not_matter() {
    let mut shop = shop();
    shop.group_clauses[0] = GroupClause::new(0, &[(3, 6, 0b011), (1, 4, 6)]);
    let group = [MANAGER, BUYER, [2, 2]];
    let orders = [
        [0, 1, 2],
        [0, 2, 1],
        [1, 0, 2],
        [1, 2, 0],
        [2, 0, 1],
        [2, 1, 0],
    ];
    let queries = orders.map(|order| about(0, &order.map(|place: usize| group[place])));
    expect(&shop, &queries, &[16; 6]);
    expect_at(600, &shop, &queries, &[17; 6]);
    shop.group_clauses[0] = GroupClause::new(0, &[(3, 6, 0b111), (1, 4, 8)]);
    expect_at(600, &shop, &queries, &[0; 6]);
}
