//! The paper's example. By day its roles weigh 5, 2 and 1, early they weigh 4, 1
//! and 0.

use crate::setups::*;
use compare::builder::GroupClause;
use compare::library_context;
use compare::questions::at_minute;
use compare::shop::small_shop;

#[test]
fn early_manager_and_buyer_are_the_only_group() {
    expect_numbers_at(480, &small_shop(), &[2]);
    let mut record = [7; 13];
    let at = library_context(at_minute(480));
    let answer = release::answers::report(&small_shop().bytes(), at, &mut record);
    assert_eq!((answer.refusal, answer.count), (0, 1));
    assert_eq!(record[..5], [2, 0, 0, 1, 1]);
    assert_eq!(record[5..], [255; 8]);
}

#[test]
fn by_day_two_are_needed() {
    expect_numbers(&small_shop(), &[2]);
}

/// With 6 as the sum the manager needs a clerk, who has weight from 540 to
/// 1020, or the buyer with the clerk's weight.
#[test]
fn the_context_decides() {
    let mut shop = small_shop();
    shop.group_clauses = vec![GroupClause::new(0, &[(1, 2, 6)])];
    for (minute, k) in [(539, 0), (540, 2), (1020, 2), (1021, 0)] {
        expect_numbers_at(minute, &shop, &[k]);
    }
}

#[test]
fn without_the_manager_by_day_nobody_can_release() {
    let mut shop = small_shop();
    shop.users.remove(0);
    expect_numbers(&shop, &[0]);
}
