//! The lent buffer: how long it has to be, and which bytes it gets.

use crate::setups::*;
use compare::builder::BaseBuilder;
use compare::expect_conflicts;
use compare::shop::small_shop;

const THREE_BYTES: [u8; 9] = [1, 0, 1, 1, 0, 2, 1, 1, 2];

#[test]
fn no_conflict_needs_no_buffer() {
    expect_conflicts(&BaseBuilder::new(1).bytes(), 0, (0, 0), &[]);
    expect_conflicts(&small_shop().bytes(), 0, (0, 0), &[]);
}

#[test]
fn no_conflict_writes_nothing() {
    for length in [1, 2, 3, 300] {
        expect_conflicts(&BaseBuilder::new(1).bytes(), length, (0, 0), &[]);
        expect_conflicts(&small_shop().bytes(), length, (0, 0), &[]);
    }
}

#[test]
fn every_shorter_buffer_gets_18_with_the_number_and_no_byte() {
    for length in 0..9 {
        expect_conflicts(&three_conflicts().bytes(), length, (18, 3), &[]);
    }
}

#[test]
fn an_exact_buffer_suffices() {
    expect_conflicts(&three_conflicts().bytes(), 9, (0, 3), &THREE_BYTES);
}

#[test]
fn bytes_after_the_list_keep_their_contents() {
    for length in [10, 11, 12, 13, 255, 256, 8_352, 70_000] {
        expect_conflicts(&three_conflicts().bytes(), length, (0, 3), &THREE_BYTES);
    }
}

#[test]
fn one_conflict_needs_three_bytes() {
    let mut base = three_conflicts();
    base.policies.truncate(2);
    for length in 0..3 {
        expect_conflicts(&base.bytes(), length, (18, 1), &[]);
    }
    expect_conflicts(&base.bytes(), 3, (0, 1), &[1, 0, 1]);
    expect_conflicts(&base.bytes(), 4, (0, 1), &[1, 0, 1]);
}

#[test]
fn a_conflict_refuses_no_check() {
    compare::expect_check(&three_conflicts().bytes(), 0);
}

#[test]
fn policies_alone_make_conflicts_in_either_order() {
    let mut base = three_conflicts();
    expect_list(&base, &THREE);
    base.policies.reverse();
    expect_list(&base, &THREE);
}
