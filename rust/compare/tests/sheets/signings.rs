//! Signing: refusals 13 to 15 and 20 of the new entry alone, where it is
//! written, and the bytes that stay.

use crate::setups::*;
use compare::builder::*;
use compare::shop::small_shop;

#[test]
fn an_entry_is_written_behind_those_held() {
    let base = open_base().bytes();
    let entries = [[5, 2], [0, 1], [7, 0], [3, 2], [1, 1], [6, 0]];
    for held in 0..6 {
        let [user, role] = entries[held].map(u32::from);
        let before = sheet(1, &entries[..held]);
        expect_signed(&base, user, role, before, sheet(1, &entries[..=held]));
    }
}

#[test]
fn only_the_count_and_the_new_entry_change() {
    let base = open_base().bytes();
    for held in 0..6 {
        let after = with_entry(claiming(held + 1), held.into(), [4, 2]);
        expect_signed(&base, 4, 2, claiming(held), after);
    }
}

#[test]
fn a_refused_signing_changes_no_byte() {
    let base = open_base().bytes();
    for sheet in noisy_sheets() {
        expect_refused(&base, 8, 0, sheet, 13);
        expect_refused(&base, 0, 3, sheet, 13);
    }
    for (refusal, base) in (1..).zip(refused_bases()) {
        for sheet in noisy_sheets() {
            expect_refused(&base, 0, 0, sheet, refusal);
        }
    }
}

#[test]
fn the_last_user_and_the_last_role_are_there() {
    let base = open_base().bytes();
    expect_signed(&base, 7, 2, sheet(0, &[]), sheet(0, &[[7, 2]]));
    for user in [8, 9, 24, 127, 128, 255] {
        expect_refused(&base, user, 2, sheet(0, &[]), 13);
    }
    for role in [3, 4, 7, 8, 127, 128, 255] {
        expect_refused(&base, 7, role, sheet(0, &[]), 13);
    }
}

#[test]
fn of_no_users_none_is_there() {
    let base = BaseBuilder {
        users: vec![],
        ..open_base()
    };
    for role in 0..3 {
        expect_refused(&base.bytes(), 0, role, sheet(0, &[]), 13);
    }
}

#[test]
fn a_user_is_not_cut_to_a_byte() {
    let base = open_base().bytes();
    for user in [256, 257, 263, 65_536, 65_537, 1 << 24, 1 << 31, u32::MAX] {
        expect_refused(&base, user, 0, sheet(0, &[]), 13);
    }
    for power in 3..32 {
        expect_refused(&base, 1 << power, 0, sheet(0, &[]), 13);
    }
}

#[test]
fn a_role_is_not_cut_to_a_byte() {
    let base = open_base().bytes();
    for role in [256, 257, 258, 65_536, 65_537, 1 << 24, 1 << 31, u32::MAX] {
        expect_refused(&base, 0, role, sheet(0, &[]), 13);
    }
    for power in 2..32 {
        expect_refused(&base, 0, 1 << power, sheet(0, &[]), 13);
    }
}

/// User 256 is no user, so it isn't user 0 either.
#[test]
fn user_256_is_not_user_0_on_the_sheet() {
    let base = open_base().bytes();
    let signed = sheet(0, &[[0, 0], [1, 1]]);
    for user in [256, 257, 65_536, 65_537] {
        expect_refused(&base, user, 2, signed, 13);
    }
    expect_refused(&base, 0, 2, signed, 14);
    expect_refused(&base, 1, 2, signed, 14);
}

/// The user holds all three roles.
#[test]
fn the_same_user_in_another_role_gets_14() {
    let base = open_base().bytes();
    for first in 0..3 {
        for second in 0..3 {
            expect_refused(&base, 4, second, sheet(0, &[[4, first]]), 14);
        }
    }
}

#[test]
fn a_user_on_the_sheet_is_found_at_every_place() {
    let base = open_base().bytes();
    for held in 1..=6 {
        for place in 0..held {
            let signed = with_entry(claiming(held), place.into(), [4, 1]);
            expect_refused(&base, 4, 2, signed, 14);
        }
    }
}

/// What stands behind the entries held is no entry.
#[test]
fn entries_that_are_not_held_are_not_looked_at() {
    let base = open_base().bytes();
    for held in 0..6 {
        for place in held..6 {
            let before = with_entry(claiming(held), place.into(), [4, 1]);
            let mut after = with_entry(before, held.into(), [4, 1]);
            after[1] = held + 1;
            expect_signed(&base, 4, 1, before, after);
        }
    }
}

/// A role that stands where a user would is no user.
#[test]
fn a_role_on_the_sheet_is_no_user() {
    let base = open_base().bytes();
    let before = sheet(0, &[[5, 1]]);
    expect_signed(&base, 1, 1, before, sheet(0, &[[5, 1], [1, 1]]));
}

/// The manager is over the buyer, the buyer over the clerks.
#[test]
fn a_role_neither_held_nor_below_one_held_gets_15() {
    let shop = small_shop().bytes();
    for (user, role) in [(1, 0), (2, 0), (2, 1), (3, 0), (3, 1)] {
        expect_refused(&shop, user, role, sheet(0, &[]), 15);
    }
    for (user, role) in [(0, 0), (0, 1), (0, 2), (1, 1), (1, 2), (2, 2), (3, 2)] {
        let after = sheet(0, &[[user, role]]);
        expect_signed(&shop, user.into(), role.into(), sheet(0, &[]), after);
    }
}

#[test]
fn a_user_without_roles_never_signs() {
    let mut base = open_base();
    base.users[2].parameter = 1;
    for role in 0..3 {
        expect_refused(&base.bytes(), 2, role, sheet(0, &[]), 15);
    }
}

/// Of eight roles, none of them senior, each user holds one.
#[test]
fn a_code_is_held_in_its_own_role_alone() {
    let mut base = BaseBuilder::new(8);
    base.users = CODES.map(User::always).to_vec();
    for user in 0..8 {
        for role in 0..8 {
            let (u, r) = (user.into(), role.into());
            if user == role {
                let after = sheet(0, &[[user, role]]);
                expect_signed(&base.bytes(), u, r, sheet(0, &[]), after);
            } else {
                expect_refused(&base.bytes(), u, r, sheet(0, &[]), 15);
            }
        }
    }
}

/// Signing knows no 10: a sheet whose opening was refused is signed too.
#[test]
fn the_sheets_permission_plays_no_part() {
    let without = BaseBuilder {
        users: open_base().users,
        ..BaseBuilder::new(3)
    };
    for base in [open_base(), without] {
        for permission in [0, 1, 2, 16, 254, 255] {
            let after = sheet(permission, &[[6, 1]]);
            expect_signed(&base.bytes(), 6, 1, sheet(permission, &[]), after);
        }
    }
}

/// Signing knows no 16 or 17: no role has weight, and there is no clause.
#[test]
fn weights_and_conditions_play_no_part() {
    let base = BaseBuilder {
        policies: vec![],
        group_clauses: vec![],
        ..open_base()
    };
    expect_signed(&base.bytes(), 0, 0, sheet(0, &[]), sheet(0, &[[0, 0]]));
}

/// User 0 stands on the sheet twice, user 200 isn't there, and user 1 holds
/// no role.
#[test]
fn the_entries_held_are_not_checked_again() {
    let mut base = open_base();
    base.users[1].parameter = 1;
    let held = [[0, 0], [0, 0], [200, 100], [1, 0]];
    let after = [&held[..], &[[7, 2]]].concat();
    expect_signed(&base.bytes(), 7, 2, sheet(0, &held), sheet(0, &after));
}

#[test]
fn a_sheet_takes_six_signatures() {
    let base = open_base().bytes();
    let six = [0, 1, 2, 3, 4, 5].map(|user| [user, 0]);
    expect_signed(&base, 5, 0, sheet(0, &six[..5]), sheet(0, &six));
    expect_refused(&base, 6, 0, sheet(0, &six), 20);
    expect_refused(&base, 7, 2, sheet(0, &six), 20);
}
