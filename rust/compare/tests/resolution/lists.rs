//! Refusal 22: which lists there are.

use crate::setups::*;
use compare::lists::{ILLEGAL, LEGAL};
use compare::questions::{at_minute, Asked};
use compare::shop::small_shop;
use compare::{
    expect_decision, expect_decision_by, expect_report, expect_report_by, expect_report_by_refused,
};

/// Expects 22 of the small shop for a decision and a report.
fn expect_refused(list: &[u8]) {
    let base = small_shop().bytes();
    let granted = Asked::new(0, at_minute(600), &[[0, 0], [2, 2]]);
    expect_decision_by(&base, list, &granted, 22);
    expect_report_by_refused(&base, at_minute(600), list, 13, 22);
}

/// Expects both to be done.
fn expect_done(list: &[u8]) {
    let base = small_shop().bytes();
    let granted = Asked::new(0, at_minute(600), &[[0, 0], [2, 2]]);
    expect_decision_by(&base, list, &granted, 0);
    expect_report_by(&base, at_minute(600), list, 13, &[2]);
}

#[test]
fn fifteen_lists_pass() {
    LEGAL.into_iter().for_each(expect_done);
}

/// The calls without a list are others.
#[test]
fn an_empty_list_is_refused() {
    expect_refused(&[]);
    let base = small_shop().bytes();
    let granted = Asked::new(0, at_minute(600), &[[0, 0], [2, 2]]);
    expect_decision(&base, &granted, 0);
    expect_report(&base, at_minute(600), 13, &[2]);
}

#[test]
fn a_rule_twice_is_refused() {
    for rule in 0..3 {
        let other = (rule + 1) % 3;
        expect_refused(&[rule, rule]);
        expect_refused(&[rule, rule, other]);
        expect_refused(&[rule, other, rule]);
        expect_refused(&[other, rule, rule]);
        expect_refused(&[rule; 3]);
    }
}

#[test]
fn every_other_byte_is_refused_in_place_of_a_rule() {
    for legal in LEGAL {
        for place in 0..legal.len() {
            for byte in 3..=255 {
                let mut list = legal.to_vec();
                list[place] = byte;
                expect_refused(&list);
            }
        }
    }
}

/// A decision is 22 for each but three and six of them.
#[test]
fn all_lists_of_one_byte_and_of_two() {
    let base = small_shop().bytes();
    let granted = Asked::new(0, at_minute(600), &[[0, 0], [2, 2]]);
    let mut done = 0;
    for one in 0..=255 {
        let others = (0..=255).map(|other| vec![one, other]);
        for list in others.chain([vec![one]]) {
            let answer = if LEGAL.contains(&&list[..]) { 0 } else { 22 };
            expect_decision_by(&base, &list, &granted, answer);
            done += usize::from(answer == 0);
        }
    }
    assert_eq!(done, 9);
}

/// No four rules differ, whatever the fourth byte is.
#[test]
fn four_bytes_are_refused_whose_first_three_are_a_list() {
    for list in LEGAL.into_iter().filter(|list| list.len() == 3) {
        for byte in [0, 1, 2, 3, 255] {
            expect_refused(&[list, &[byte]].concat());
        }
    }
}

#[test]
fn longer_lists_are_refused() {
    for length in [4, 5, 6, 7, 8, 15, 16, 64, 255, 256] {
        let rules = [0, 1, 2].into_iter().cycle();
        expect_refused(&rules.take(length).collect::<Vec<u8>>());
        expect_refused(&vec![0; length]);
    }
}

/// The low byte of each length is 1, 2 or 3.
#[test]
fn lengths_are_not_cut_to_a_byte() {
    for (more, list) in [256, 512, 65_536]
        .into_iter()
        .zip([&[0][..], &[1, 0], &[2, 1, 0]])
    {
        let mut long = list.to_vec();
        long.resize(more + list.len(), 3);
        expect_refused(&long);
    }
}

#[test]
fn the_named_illegal_lists_are_refused() {
    ILLEGAL.into_iter().for_each(expect_refused);
}

/// The base has no policy that a list could choose among.
#[test]
fn a_list_is_refused_where_nothing_is_chosen() {
    let base = with_policies(&[]);
    for (list, answer) in [(&[][..], 22), (&[1, 1], 22), (&[7], 22), (&[1], 16)] {
        let asked = Asked::new(0, at_minute(600), &[[0, 0]]);
        expect_decision_by(&base.bytes(), list, &asked, answer);
    }
}
