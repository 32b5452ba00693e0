//! Refusals 12 and 13: the group's length, and entries whose user or role
//! isn't there.

use crate::setups::*;
use compare::expect_decision;
use compare::questions::{at_minute, Asked};

/// Expects this answer for the first bytes of a group whose users all differ:
/// seven, then the same again.
fn expect_length(length: usize, answer: u8) {
    let entries = (0..7).cycle().flat_map(|user| [user, 0]);
    let asked = Asked {
        permission: 0,
        at: at_minute(600),
        group: entries.take(length).collect(),
    };
    expect_decision(&open_base(1).bytes(), &asked, answer);
}

#[test]
fn length_0_is_refused() {
    expect_length(0, 12);
}

#[test]
fn length_1_is_refused() {
    expect_length(1, 12);
}

#[test]
fn length_2_is_one_entry() {
    expect_length(2, 0);
}

#[test]
fn length_11_is_refused() {
    expect_length(11, 12);
}

#[test]
fn length_12_is_six_entries() {
    expect_length(12, 0);
}

#[test]
fn length_13_is_refused() {
    expect_length(13, 12);
}

#[test]
fn length_14_is_refused() {
    expect_length(14, 12);
}

#[test]
fn between_1_and_12_the_even_lengths_pass() {
    for length in [4, 6, 8, 10] {
        expect_length(length, 0);
        expect_length(length - 1, 12);
        expect_length(length + 1, 12);
    }
}

#[test]
fn a_length_is_not_cut() {
    for length in [256, 258, 260, 268, 512, 65_536, 65_538, 65_548] {
        expect_length(length, 12);
    }
}

#[test]
fn a_length_fault_beats_every_bad_entry() {
    for byte in [3, 7, 8, 128, 255] {
        for length in [0, 1, 3, 5, 7, 9, 11, 13, 14, 15, 16, 255, 256, 258] {
            let asked = Asked {
                permission: 0,
                at: at_minute(600),
                group: vec![byte; length],
            };
            expect_decision(&open_base(1).bytes(), &asked, 12);
        }
    }
}

#[test]
fn a_length_fault_beats_a_user_twice() {
    let asked = Asked::new(0, at_minute(600), &[[0, 0]; 7]);
    expect_decision(&open_base(1).bytes(), &asked, 12);
    expect(&open_base(1), &[[0, 0]; 6], 14);
}

#[test]
fn the_seventh_of_seven_users_is_the_last() {
    expect(&open_base(1), &[[6, 0]], 0);
    for user in [7, 8, 23, 24, 127, 128, 255] {
        expect(&open_base(1), &[[user, 0]], 13);
    }
}

#[test]
fn user_23_of_24_is_the_last() {
    let mut base = open_base(1);
    base.users = vec![all_roles(1); 24];
    expect(&base, &[[23, 0]], 0);
    expect(&base, &[[24, 0]], 13);
}

/// An absent parameter is no number that every code divides.
#[test]
fn without_users_nobody_is_there() {
    let mut base = open_base(8);
    base.users.clear();
    for role in 0..8 {
        expect(&base, &[[0, role]], 13);
    }
}

#[test]
fn the_last_role_is_below_r() {
    for roles in 1..=8 {
        let base = open_base(roles);
        expect(&base, &[[0, roles - 1]], 0);
        expect(&base, &[[0, roles]], 13);
        expect(&base, &[[0, 8]], 13);
        expect(&base, &[[0, 255]], 13);
    }
}

/// Two users and three roles.
#[test]
fn the_user_comes_before_the_role() {
    let mut base = open_base(3);
    base.users.truncate(2);
    expect(&base, &[[1, 2]], 0);
    expect(&base, &[[2, 1]], 13);
}

#[test]
fn an_absent_user_beside_sound_entries_is_refused() {
    expect(&open_base(2), &[[0, 0], [7, 1], [1, 1]], 13);
    expect(&open_base(2), &[[0, 0], [6, 1], [1, 1]], 0);
}
