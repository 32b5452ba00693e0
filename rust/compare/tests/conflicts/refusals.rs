//! Refusals 1 to 9 carry 0 and write nothing, however long the buffer is.
//! Each base would have three conflicts without its fault.

use crate::setups::*;
use compare::builder::*;
use compare::expect_conflicts;

fn refused(base: &[u8], refusal: u8) {
    for length in [0, 1, 8, 9, 10, 300] {
        expect_conflicts(base, length, (refusal, 0), &[]);
    }
}

fn refused_after(change: impl FnOnce(&mut BaseBuilder), refusal: u8) {
    let mut base = three_conflicts();
    change(&mut base);
    refused(&base.bytes(), refusal);
}

#[test]
fn without_a_fault_it_is_accepted() {
    expect_list(&three_conflicts(), &THREE);
}

#[test]
fn refusal_1_too_short() {
    refused(&[], 1);
    refused(&BaseBuilder::new(1).bytes()[1..], 1);
}

#[test]
fn refusal_1_too_long() {
    let mut bytes = vec![0; 2_461];
    refused(&bytes, 1);
    let sound = three_conflicts().bytes();
    let start = bytes.len() - sound.len();
    bytes[start..].copy_from_slice(&sound);
    refused(&bytes, 1);
}

#[test]
fn refusal_2() {
    let base = three_conflicts();
    refused(&base.bytes_with(|trailer| trailer.letters[0] = b'l'), 2);
    refused(&base.bytes_with(|trailer| trailer.letters = OLD_LETTERS), 2);
    refused(&base.old_bytes(OLD_LETTERS), 2);
    refused(&[0; 36], 2);
}

#[test]
fn refusal_3() {
    let base = three_conflicts();
    refused(&base.bytes_with(|trailer| trailer.zeros[0] = 1), 3);
    refused(&base.bytes_with(|trailer| trailer.roles = 0), 3);
    refused(&base.bytes_with(|trailer| trailer.places[5].count = 2), 3);
    refused_after(|base| base.policies = vec![policy(0, 0, 1, 0); 65], 3);
}

#[test]
fn refusal_4() {
    refused_after(|base| base.hierarchy = edges(&[(0, 1), (1, 1)]), 4);
    refused_after(|base| base.hierarchy = edges(&[(0, 2)]), 4);
}

#[test]
fn refusal_5() {
    refused_after(|base| base.users = users(&[15, 0]), 5);
    refused_after(|base| base.users = users(&[7]), 5);
    let mut turned = users(&[15, 15]);
    turned[1].set_days(300, 299);
    refused_after(|base| base.users = turned, 5);
}

#[test]
fn refusal_6() {
    let clause = GroupClause::new(1, &[(0, 2, 1)]);
    refused_after(|base| base.group_clauses = vec![clause], 6);
}

#[test]
fn refusal_7() {
    let late = ContextClause::new(0, &[(0, 0, 1_440)]);
    refused_after(|base| base.context_clauses = vec![late], 7);
}

#[test]
fn refusal_8() {
    refused_after(|base| base.policies[2].weight = 6, 8);
    refused_after(|base| base.policies[2].context = 16, 8);
    refused_after(|base| base.policies[2].role = 2, 8);
}

#[test]
fn refusal_9() {
    refused_after(
        |base| base.exclusions = exclusions(&[(0, 0, 1), (0, 1, 1)]),
        9,
    );
    refused_after(|base| base.exclusions = exclusions(&[(1, 0, 1)]), 9);
}

#[test]
fn the_first_refusal_that_applies_is_given() {
    let mut base = three_conflicts();
    base.exclusions = exclusions(&[(2, 0, 1)]);
    refused(&base.bytes(), 9);
    base.policies[2].inheritable = 2;
    refused(&base.bytes(), 8);
    base.users = users(&[9]);
    refused(&base.bytes(), 5);
}
