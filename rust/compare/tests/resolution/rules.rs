//! What each rule tells apart, alone and in order. Policies are by issue day, rank
//! and weight.

use crate::setups::*;
use compare::builder::Policy;
use compare::lists::LEGAL;

/// Expects the second policy to go before the first by a list, wherever they
/// stand.
fn expect_second(first: Policy, second: Policy, list: &[u8]) {
    let weight = second.weight;
    assert!(first.weight != weight);
    expect_own(&[first.clone(), second.clone()], list, weight);
    expect_own(&[second, first], list, weight);
}

#[test]
fn by_rule_0_the_later_day_goes_first() {
    expect_second(issued(1, 9, 1), issued(2, 0, 5), &[0]);
    expect_second(issued(0, 9, 1), issued(1, 0, 5), &[0]);
    expect_second(issued(0, 9, 1), issued(65_535, 0, 5), &[0]);
    expect_second(issued(65_534, 9, 1), issued(65_535, 0, 5), &[0]);
}

/// The high byte is the second one.
#[test]
fn a_day_has_two_bytes() {
    expect_second(issued(255, 9, 1), issued(256, 0, 5), &[0]);
    expect_second(issued(2, 9, 1), issued(256, 0, 5), &[0]);
    expect_second(issued(0x01ff, 9, 1), issued(0x0200, 0, 5), &[0]);
    expect_second(issued(0x1234, 9, 1), issued(0x1235, 0, 5), &[0]);
    expect_second(issued(0x12ff, 9, 1), issued(0x1300, 0, 5), &[0]);
}

#[test]
fn a_day_has_no_sign() {
    expect_second(issued(32_767, 9, 1), issued(32_768, 0, 5), &[0]);
    expect_second(issued(127, 9, 1), issued(128, 0, 5), &[0]);
}

#[test]
fn by_rule_1_the_larger_rank_goes_first() {
    expect_second(issued(9, 1, 1), issued(0, 2, 5), &[1]);
    expect_second(issued(9, 0, 1), issued(0, 1, 5), &[1]);
    expect_second(issued(9, 127, 1), issued(0, 128, 5), &[1]);
    expect_second(issued(9, 254, 1), issued(0, 255, 5), &[1]);
    expect_second(issued(65_535, 0, 1), issued(0, 255, 5), &[1]);
}

#[test]
fn by_rule_2_the_smaller_weight_goes_first() {
    for heavy in 2..=5 {
        for light in 1..heavy {
            expect_second(issued(9, 9, heavy), issued(0, 0, light), &[2]);
        }
    }
}

#[test]
fn rule_0_beats_rule_1_where_it_stands_first() {
    let (later, higher) = (issued(2, 1, 3), issued(1, 2, 4));
    expect_second(higher.clone(), later.clone(), &[0, 1]);
    expect_second(later, higher, &[1, 0]);
}

#[test]
fn rule_0_beats_rule_2_where_it_stands_first() {
    let (later, lighter) = (issued(2, 7, 3), issued(1, 7, 2));
    expect_second(lighter.clone(), later.clone(), &[0, 2]);
    expect_second(later, lighter, &[2, 0]);
}

#[test]
fn rule_1_beats_rule_2_where_it_stands_first() {
    let (higher, lighter) = (issued(7, 2, 3), issued(7, 1, 2));
    expect_second(lighter.clone(), higher.clone(), &[1, 2]);
    expect_second(higher, lighter, &[2, 1]);
}

/// All three rules disagree about three policies.
#[test]
fn the_first_rule_of_three_decides() {
    let three = [issued(3, 2, 4), issued(2, 3, 3), issued(1, 1, 2)];
    for list in LEGAL {
        let weight = [4, 3, 2][usize::from(list[0])];
        expect_own(&three, list, weight);
        expect_own(
            &[2, 0, 1].map(|place: usize| three[place].clone()),
            list,
            weight,
        );
    }
}

#[test]
fn the_second_rule_decides_where_the_first_does_not() {
    expect_second(issued(7, 1, 2), issued(7, 2, 3), &[0, 1]);
    expect_second(issued(7, 2, 3), issued(7, 1, 2), &[0, 2]);
    expect_second(issued(1, 7, 2), issued(2, 7, 3), &[1, 0]);
    expect_second(issued(2, 7, 3), issued(1, 7, 2), &[1, 2]);
}

#[test]
fn the_third_rule_decides_where_two_do_not() {
    expect_second(issued(7, 7, 3), issued(7, 7, 2), &[0, 1, 2]);
    expect_second(issued(7, 7, 3), issued(7, 7, 2), &[1, 0, 2]);
}

/// Of those of the latest day the ones of the highest rank, and of these the
/// lightest; an older one of higher rank and a lighter one of lower rank are
/// passed over.
#[test]
fn each_rule_decides_among_those_left() {
    let policies = [
        issued(8, 9, 1),
        issued(9, 4, 1),
        issued(9, 5, 5),
        issued(9, 5, 4),
        issued(9, 5, 4),
    ];
    expect_own(&policies, &[0], 1);
    expect_own(&policies, &[0, 1], 5);
    expect_own(&policies, &[0, 1, 2], 4);
    expect_own(&policies, &[0, 2, 1], 1);
    expect_own(&policies, &[1, 0, 2], 1);
}

/// By the smaller weight all that are left weigh the same, so that it makes no
/// difference which of them a later rule chooses.
#[test]
fn what_stands_behind_the_weight_changes_no_weight() {
    let policies = [
        issued(1, 1, 2),
        issued(9, 1, 2),
        issued(1, 9, 2),
        issued(9, 9, 3),
    ];
    for list in [&[2][..], &[2, 0], &[2, 1], &[2, 0, 1], &[2, 1, 0]] {
        expect_own(&policies, list, 2);
    }
}

#[test]
fn the_chosen_one_may_stand_anywhere() {
    let chosen = issued(9, 9, 1);
    for place in 0..5 {
        let mut policies = vec![issued(1, 1, 5); 5];
        policies[place] = chosen.clone();
        for list in LEGAL {
            expect_own(&policies, list, 1);
        }
    }
}
