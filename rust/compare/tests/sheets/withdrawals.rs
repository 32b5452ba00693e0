//! Withdrawal: which entries go, where the others stand then, and refusal 23.

use crate::setups::*;
use compare::builder::BaseBuilder;
use compare::questions::at_minute;
use compare::shop::small_shop;

/// Six entries for permission 1, each of a user in a role of its own.
const SIX: [u8; 14] = [1, 6, 20, 1, 30, 2, 40, 3, 50, 4, 60, 5, 70, 6];

/// What is left of them without one.
const FIVE: [(u32, [u8; 14]); 6] = [
    (20, [1, 5, 30, 2, 40, 3, 50, 4, 60, 5, 70, 6, 0, 0]),
    (30, [1, 5, 20, 1, 40, 3, 50, 4, 60, 5, 70, 6, 0, 0]),
    (40, [1, 5, 20, 1, 30, 2, 50, 4, 60, 5, 70, 6, 0, 0]),
    (50, [1, 5, 20, 1, 30, 2, 40, 3, 60, 5, 70, 6, 0, 0]),
    (60, [1, 5, 20, 1, 30, 2, 40, 3, 50, 4, 70, 6, 0, 0]),
    (70, [1, 5, 20, 1, 30, 2, 40, 3, 50, 4, 60, 5, 0, 0]),
];

/// The sheet with another claim.
fn claiming_of(mut sheet: [u8; 14], count: u8) -> [u8; 14] {
    sheet[1] = count;
    sheet
}

#[test]
fn each_place_of_a_full_sheet() {
    for (user, after) in FIVE {
        expect_withdrawn(user, SIX, after);
    }
}

#[test]
fn each_place_of_three() {
    let three = [0, 3, 7, 2, 4, 0, 9, 1, 0, 0, 0, 0, 0, 0];
    expect_withdrawn(7, three, [0, 2, 4, 0, 9, 1, 0, 0, 0, 0, 0, 0, 0, 0]);
    expect_withdrawn(4, three, [0, 2, 7, 2, 9, 1, 0, 0, 0, 0, 0, 0, 0, 0]);
    expect_withdrawn(9, three, [0, 2, 7, 2, 4, 0, 0, 0, 0, 0, 0, 0, 0, 0]);
}

#[test]
fn each_place_of_two() {
    let two = [0, 2, 7, 2, 4, 0, 0, 0, 0, 0, 0, 0, 0, 0];
    expect_withdrawn(7, two, [0, 1, 4, 0, 0, 0, 0, 0, 0, 0, 0, 0, 0, 0]);
    expect_withdrawn(4, two, [0, 1, 7, 2, 0, 0, 0, 0, 0, 0, 0, 0, 0, 0]);
}

#[test]
fn the_only_entry_leaves_an_unsigned_sheet() {
    for user in 0..=255 {
        let unsigned = [3, 0, 0, 0, 0, 0, 0, 0, 0, 0, 0, 0, 0, 0];
        expect_withdrawn(user.into(), sheet(3, &[[user, 9]]), unsigned);
        expect_no_entry(user.into(), unsigned);
    }
}

#[test]
fn each_place_of_every_number_of_entries() {
    let entries = [[5, 2], [0, 1], [7, 0], [3, 2], [1, 1], [6, 0]];
    for held in 1..=6 {
        for place in 0..held {
            let mut left = entries[..held].to_vec();
            let [user, _] = left.remove(place);
            expect_withdrawn(user.into(), sheet(1, &entries[..held]), sheet(1, &left));
        }
    }
}

#[test]
fn of_a_claim_of_7_or_255_five_entries_are_left() {
    for count in [7, 255] {
        for (user, after) in FIVE {
            expect_withdrawn(user, claiming_of(SIX, count), after);
        }
    }
}

#[test]
fn every_claim_over_six_is_read_as_six() {
    for count in 6..=255 {
        let (user, after) = FIVE[5];
        expect_withdrawn(user, claiming_of(SIX, count), after);
        expect_no_entry(80, claiming_of(SIX, count));
    }
}

#[test]
fn a_user_named_twice_goes_from_both_places() {
    let twice = [0, 4, 3, 0, 8, 2, 3, 1, 6, 2, 0, 0, 0, 0];
    let after = [0, 2, 8, 2, 6, 2, 0, 0, 0, 0, 0, 0, 0, 0];
    expect_withdrawn(3, twice, after);
    expect_no_entry(3, after);
    let side_by_side = [0, 3, 8, 2, 3, 0, 3, 0, 0, 0, 0, 0, 0, 0];
    let after = [0, 1, 8, 2, 0, 0, 0, 0, 0, 0, 0, 0, 0, 0];
    expect_withdrawn(3, side_by_side, after);
    expect_no_entry(3, after);
}

#[test]
fn a_user_named_first_and_last_on_a_sheet_that_claims_over_six() {
    for count in [7, 8, 128, 255] {
        let twice = [0, count, 3, 0, 8, 2, 9, 1, 6, 2, 5, 5, 3, 1];
        let after = [0, 4, 8, 2, 9, 1, 6, 2, 5, 5, 0, 0, 0, 0];
        expect_withdrawn(3, twice, after);
        expect_no_entry(3, after);
    }
}

#[test]
fn a_user_in_every_entry_leaves_an_unsigned_sheet() {
    for count in [1, 2, 5, 6, 7, 255] {
        let unsigned = [4, 0, 0, 0, 0, 0, 0, 0, 0, 0, 0, 0, 0, 0];
        let all = [4, count, 4, 0, 4, 1, 4, 2, 4, 3, 4, 4, 4, 5];
        expect_withdrawn(4, all, unsigned);
        expect_no_entry(4, unsigned);
    }
}

/// User 256 stands nowhere, so it isn't user 0 either.
#[test]
fn user_256_is_not_user_0() {
    let sheet = [0, 3, 0, 0, 1, 1, 255, 2, 0, 0, 0, 0, 0, 0];
    for user in [256, 257, 511, 65_536, 65_537, 65_791, 1 << 24, u32::MAX] {
        expect_no_entry(user, sheet);
    }
    for power in 8..32 {
        expect_no_entry(1 << power, sheet);
    }
    expect_withdrawn(0, sheet, [0, 2, 1, 1, 255, 2, 0, 0, 0, 0, 0, 0, 0, 0]);
    expect_withdrawn(255, sheet, [0, 2, 0, 0, 1, 1, 0, 0, 0, 0, 0, 0, 0, 0]);
}

#[test]
fn a_user_and_the_same_with_65_536_more() {
    for (user, after) in FIVE {
        expect_no_entry(65_536 + user, SIX);
        expect_no_entry(256 + user, SIX);
        expect_withdrawn(user, SIX, after);
    }
}

#[test]
fn a_user_behind_the_entries_claimed_gets_23() {
    for held in 0..6 {
        for place in held..6 {
            let user = 200 + u32::from(place);
            expect_no_entry(user, claiming(held));
        }
    }
}

/// The sixth entry's bytes name the second entry's user.
#[test]
fn a_user_held_once_and_named_behind_goes_once() {
    let before = [0, 3, 8, 2, 3, 0, 6, 1, 7, 7, 7, 7, 3, 0];
    let after = [0, 2, 8, 2, 6, 1, 0, 0, 0, 0, 0, 0, 0, 0];
    expect_withdrawn(3, before, after);
}

#[test]
fn bytes_behind_the_entries_are_cleared() {
    let left = [
        (1, [0, 0, 0, 0, 0, 0, 0, 0, 0, 0, 0, 0, 0, 0]),
        (2, [0, 1, 201, 101, 0, 0, 0, 0, 0, 0, 0, 0, 0, 0]),
        (3, [0, 2, 201, 101, 202, 102, 0, 0, 0, 0, 0, 0, 0, 0]),
        (
            5,
            [0, 4, 201, 101, 202, 102, 203, 103, 204, 104, 0, 0, 0, 0],
        ),
    ];
    for (held, after) in left {
        expect_withdrawn(200, claiming(held), after);
    }
}

/// Whatever its bytes behind the first two.
#[test]
fn an_unsigned_sheet_gets_23() {
    for noise in noisy_sheets() {
        let unsigned = claiming_of(noise, 0);
        for user in [0, 7, 255, 256, u32::MAX] {
            expect_no_entry(user, unsigned);
        }
    }
}

#[test]
fn the_sheet_of_a_refused_opening_is_withdrawn_from() {
    let mut day = Day::new();
    day.open(&open_base(), 2, 10);
    day.withdraw(0, 23);
    day.withdraw(255, 23);
    day.holds(255, &[]);
    day.sign(&open_base(), 0, 1, 0);
    day.sign(&open_base(), 5, 2, 0);
    day.withdraw(0, 0);
    day.holds(255, &[[5, 2]]);
    day.withdraw(5, 0);
    day.holds(255, &[]);
}

/// Neither a role, nor the permission, nor the number of entries.
#[test]
fn another_byte_of_the_same_number_is_no_user() {
    let signed = [9, 3, 5, 1, 6, 2, 7, 8, 0, 0, 0, 0, 0, 0];
    for user in [1, 2, 8, 9, 3, 0] {
        expect_no_entry(user, signed);
    }
}

/// Users 1 and 2, each in a role that is the other's number.
#[test]
fn the_user_goes_and_not_the_one_in_the_role_of_that_number() {
    let crossed = [0, 2, 2, 1, 1, 2, 0, 0, 0, 0, 0, 0, 0, 0];
    expect_withdrawn(1, crossed, [0, 1, 2, 1, 0, 0, 0, 0, 0, 0, 0, 0, 0, 0]);
    expect_withdrawn(2, crossed, [0, 1, 1, 2, 0, 0, 0, 0, 0, 0, 0, 0, 0, 0]);
}

#[test]
fn the_permission_stays() {
    for permission in [0, 1, 15, 16, 200, 254, 255] {
        let [before, after] = [&[[4, 1], [2, 0]][..], &[[2, 0]]];
        expect_withdrawn(4, sheet(permission, before), sheet(permission, after));
    }
}

#[test]
fn a_refused_withdrawal_changes_no_byte() {
    let [noise, inverse, zeros, ones] = noisy_sheets();
    for user in [0, 1, 254, 255, 256, u32::MAX] {
        expect_no_entry(user, noise);
        expect_no_entry(user, inverse);
    }
    for user in [0, 255] {
        expect_no_entry(user, zeros);
    }
    for user in [0, 254, 256, u32::MAX] {
        expect_no_entry(user, ones);
    }
}

#[test]
fn who_signs_again_stands_last() {
    let base = open_base();
    let mut day = Day::new();
    day.open(&base, 0, 0);
    for (user, role) in [(5, 0), (1, 1), (3, 2)] {
        day.sign(&base, user, role, 0);
    }
    day.sign(&base, 5, 2, 14);
    day.withdraw(5, 0);
    day.holds(0, &[[1, 1], [3, 2]]);
    day.sign(&base, 5, 2, 0);
    day.holds(0, &[[1, 1], [3, 2], [5, 2]]);
    day.sign(&base, 5, 0, 14);
}

#[test]
fn two_withdrawals_in_either_order_leave_the_same() {
    for users in [[30, 60], [60, 30]] {
        let [first, second] = users;
        let between = FIVE.iter().find(|(user, _)| *user == first);
        let (_, between) = between.expect("the user has an entry");
        expect_withdrawn(first, SIX, *between);
        let after = [1, 4, 20, 1, 40, 3, 50, 4, 70, 6, 0, 0, 0, 0];
        expect_withdrawn(second, *between, after);
    }
}

#[test]
fn all_six_withdraw_and_then_nobody_can() {
    let base = open_base();
    let mut day = Day::new();
    day.open(&base, 1, 0);
    for user in 0..6 {
        day.sign(&base, user, 0, 0);
    }
    for user in [3, 0, 5, 1, 4, 2] {
        day.withdraw(user, 0);
        day.withdraw(user, 23);
    }
    day.holds(1, &[]);
    day.ask(&base, 12);
}

#[test]
fn a_withdrawal_makes_room_on_a_full_sheet() {
    let base = open_base();
    let mut day = Day::new();
    day.open(&base, 0, 0);
    for user in 0..6 {
        day.sign(&base, user, 1, 0);
    }
    day.sign(&base, 6, 1, 20);
    day.withdraw(6, 23);
    day.withdraw(2, 0);
    day.sign(&base, 6, 1, 0);
    day.sign(&base, 2, 1, 20);
    day.holds(0, &[0, 1, 3, 4, 5, 6].map(|user| [user, 1]));
}

#[test]
fn a_signing_taken_back_at_once_leaves_every_byte() {
    let base = open_base().bytes();
    let entries = [[5, 2], [0, 1], [7, 0], [3, 2], [1, 1]];
    for permission in [0, 1, 255] {
        for held in 0..6 {
            let before = sheet(permission, &entries[..held]);
            let signed = with_entry(claiming_of(before, held as u8 + 1), held, [4, 2]);
            expect_signed(&base, 4, 2, before, signed);
            expect_withdrawn(4, signed, before);
        }
    }
}

/// By day manager and clerk have 6 of 5; one alone isn't two.
#[test]
fn a_withdrawal_takes_the_grant_away() {
    let shop = small_shop();
    let mut day = Day::new();
    day.open(&shop, 0, 0);
    day.sign(&shop, 0, 0, 0);
    day.sign(&shop, 2, 2, 0);
    day.ask(&shop, 0);
    day.withdraw(2, 0);
    day.ask(&shop, 17);
    day.withdraw(0, 0);
    day.ask(&shop, 12);
    day.sign(&shop, 2, 2, 0);
    day.sign(&shop, 0, 0, 0);
    day.ask(&shop, 0);
    day.holds(0, &[CLERK, MANAGER]);
}

/// Early a clerk has no weight, and manager and buyer have 5.
#[test]
fn a_withdrawal_brings_a_grant() {
    let shop = small_shop().bytes();
    let early = at_minute(480);
    let before = sheet(0, &[MANAGER, CLERK, BUYER]);
    expect_ask_at(&shop, early, before, 16);
    expect_withdrawn(2, before, sheet(0, &[MANAGER, BUYER]));
    expect_ask_at(&shop, early, sheet(0, &[MANAGER, BUYER]), 0);
}

#[test]
fn a_user_whom_the_base_has_lost_withdraws() {
    let fewer = BaseBuilder {
        users: open_base().users[..7].to_vec(),
        ..open_base()
    };
    let mut day = Day::new();
    day.open(&open_base(), 0, 0);
    day.sign(&open_base(), 7, 1, 0);
    day.sign(&fewer, 0, 1, 0);
    day.ask(&fewer, 13);
    day.withdraw(7, 0);
    day.ask(&fewer, 0);
    day.sign(&fewer, 7, 1, 13);
    day.holds(0, &[[0, 1]]);
}
