//! Signing and asking in roles below the one held.

use crate::setups::*;
use compare::builder::*;
use compare::questions::at_minute;
use compare::shop::small_shop;

/// 0 over 1 over 2 over .. over 7; user r holds role r alone, and user 8 none.
/// Each role has weight 1, and each group passes the condition.
fn chain() -> BaseBuilder {
    let edge = |senior| Edge {
        senior,
        junior: senior + 1,
    };
    let mut users = CODES.map(User::always).to_vec();
    users.push(User::always(1));
    BaseBuilder {
        hierarchy: (0..7).map(edge).collect(),
        users,
        group_clauses: vec![GroupClause::new(0, &[(0, 2, 1)])],
        policies: (0..8)
            .map(|role| Policy::new(role, 0, 1, 0, NO_CONTEXT))
            .collect(),
        ..BaseBuilder::new(8).with_permissions(1)
    }
}

#[test]
fn a_user_signs_and_asks_down_the_chain_and_not_up() {
    let base = chain().bytes();
    for user in 0..8 {
        for role in 0..8 {
            let signed = sheet(0, &[[user, role]]);
            let (u, r) = (user.into(), role.into());
            if user <= role {
                expect_signed(&base, u, r, sheet(0, &[]), signed);
                expect_ask(&base, signed, 0);
            } else {
                expect_refused(&base, u, r, sheet(0, &[]), 15);
                expect_ask(&base, signed, 15);
            }
        }
    }
}

#[test]
fn a_user_without_roles_signs_in_none() {
    for role in 0..8 {
        expect_refused(&chain().bytes(), 8, role, sheet(0, &[]), 15);
    }
}

#[test]
fn a_role_that_is_not_there_is_13_before_15() {
    let base = chain().bytes();
    let shop = small_shop().bytes();
    for role in [8, 9, 255, 256, 263] {
        expect_refused(&base, 0, role, sheet(0, &[]), 13);
    }
    expect_refused(&shop, 0, 3, sheet(0, &[]), 13);
    expect_refused(&shop, 2, 3, sheet(0, &[]), 13);
}

/// In whatever role the user signed.
#[test]
fn a_user_signs_once_in_roles_held_and_below() {
    let shop = small_shop().bytes();
    for first in 0..3 {
        for second in 0..3 {
            expect_refused(&shop, 0, second, sheet(0, &[[0, first]]), 14);
        }
    }
    expect_refused(&shop, 1, 0, sheet(0, &[[1, 2]]), 14);
}

#[test]
fn a_full_sheet_gets_15_before_20() {
    let base = chain().bytes();
    let full = sheet(0, &[0, 1, 2, 3, 4, 5].map(|user| [user, 6]));
    expect_ask(&base, full, 0);
    expect_refused(&base, 7, 6, full, 15);
    expect_refused(&base, 6, 5, full, 15);
    expect_refused(&base, 6, 6, full, 20);
    expect_refused(&base, 6, 7, full, 20);
}

/// By day manager as buyer 2, buyer 2, clerk 1: the condition asks for 5.
#[test]
fn a_sheet_signed_below_roles_held_is_asked() {
    let shop = small_shop().bytes();
    let entries = [[0, 1], BUYER, CLERK];
    for (held, answer) in [(1, 17), (2, 17), (3, 0)] {
        let [user, role] = entries[held - 1].map(u32::from);
        let before = sheet(0, &entries[..held - 1]);
        let after = sheet(0, &entries[..held]);
        expect_signed(&shop, user, role, before, after);
        expect_ask(&shop, after, answer);
    }
    expect_ask(&shop, sheet(0, &[MANAGER, [1, 2]]), 0);
}

/// Early a clerk has no weight, whoever acts as one.
#[test]
fn a_role_without_weight_is_signed_and_gets_16() {
    let shop = small_shop().bytes();
    let signed = sheet(0, &[MANAGER, [1, 2]]);
    expect_signed(&shop, 1, 2, sheet(0, &[MANAGER]), signed);
    expect_ask_at(&shop, at_minute(480), signed, 16);
}

/// The buyer signs as clerk. Then the manager is over both, or nobody is over
/// anybody.
#[test]
fn a_sheet_is_asked_against_other_h_records() {
    let shop = small_shop().bytes();
    let signed = sheet(0, &[MANAGER, [1, 2]]);
    expect_signed(&shop, 1, 2, sheet(0, &[MANAGER]), signed);
    let mut fork = small_shop();
    fork.hierarchy[1].senior = 0;
    let mut apart = small_shop();
    apart.hierarchy.clear();
    for other in [fork, apart] {
        let other = other.bytes();
        expect_ask(&other, signed, 15);
        expect_refused(&other, 1, 2, signed, 14);
        expect_refused(&other, 1, 2, sheet(0, &[MANAGER]), 15);
    }
    expect_ask(&shop, signed, 0);
}

/// Who was refused may sign when the records allow it.
#[test]
fn a_user_who_was_refused_signs_under_other_h_records() {
    let mut apart = chain();
    apart.hierarchy.remove(3);
    let unsigned = sheet(0, &[]);
    expect_refused(&apart.bytes(), 0, 4, unsigned, 15);
    let signed = sheet(0, &[[0, 4]]);
    expect_signed(&chain().bytes(), 0, 4, unsigned, signed);
    expect_ask(&apart.bytes(), signed, 15);
    expect_ask(&chain().bytes(), signed, 0);
}
