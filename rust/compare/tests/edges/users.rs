//! Refusal 5: role assignment parameters and days.

use compare::builder::{BaseBuilder, User};
use compare::expect_check;
use compare::shop::small_shop;

/// Expects this answer for a base of one user.
fn expect_parameter(roles: u8, parameter: u32, answer: u8) {
    let mut base = BaseBuilder::new(roles);
    base.users.push(User::always(parameter));
    expect_check(&base.bytes(), answer);
}

#[test]
fn parameter_0_is_refused() {
    for roles in 1..=8 {
        expect_parameter(roles, 0, 5);
    }
}

#[test]
fn parameter_1_is_no_role_and_passes() {
    for roles in 1..=8 {
        expect_parameter(roles, 1, 0);
    }
}

#[test]
fn parameter_2_is_refused() {
    expect_parameter(3, 2, 5);
    expect_parameter(3, 6, 5);
}

#[test]
fn parameter_9_takes_a_code_twice_and_is_refused() {
    expect_parameter(3, 9, 5);
}

#[test]
fn parameter_11_is_the_code_of_role_3_and_refused_with_three_roles() {
    expect_parameter(3, 11, 5);
    expect_parameter(4, 11, 0);
}

#[test]
fn parameter_105_is_all_of_three_roles_and_passes() {
    expect_parameter(3, 105, 0);
}

#[test]
fn parameter_105_needs_three_roles() {
    expect_parameter(2, 105, 5);
    expect_parameter(8, 105, 0);
}

#[test]
fn parameter_315_takes_3_twice_and_is_refused() {
    expect_parameter(3, 315, 5);
}

#[test]
fn parameter_1155_goes_one_role_too_far_with_three() {
    expect_parameter(3, 1155, 5);
    expect_parameter(4, 1155, 0);
}

#[test]
fn parameter_111546435_is_all_of_eight_roles_and_passes() {
    expect_parameter(8, 111_546_435, 0);
}

#[test]
fn parameter_111546435_needs_eight_roles() {
    expect_parameter(7, 111_546_435, 5);
    expect_parameter(7, 4_849_845, 0);
}

#[test]
fn parameter_334639305_takes_3_twice_and_is_refused() {
    expect_parameter(8, 334_639_305, 5);
}

#[test]
fn parameter_4294967295_is_refused() {
    for roles in 1..=8 {
        expect_parameter(roles, u32::MAX, 5);
    }
}

#[test]
fn the_largest_power_of_3_is_refused() {
    expect_parameter(8, 3_486_784_401, 5);
}

#[test]
fn each_code_passes_below_r_and_is_refused_at_r() {
    let codes = [3, 5, 7, 11, 13, 17, 19, 23];
    for (role, code) in (0..8).zip(codes) {
        expect_parameter(role + 1, code, 0);
        if role > 0 {
            expect_parameter(role, code, 5);
        }
    }
}

#[test]
fn each_square_of_a_code_is_refused() {
    for square in [9, 25, 49, 121, 169, 289, 361, 529] {
        expect_parameter(8, square, 5);
    }
}

#[test]
fn the_prime_after_the_last_code_is_refused() {
    expect_parameter(8, 29, 5);
    expect_parameter(8, 29 * 3, 5);
}

/// 255 is 3 times 5 times 17; 17 is the code of role 5.
#[test]
fn parameter_255_needs_six_roles() {
    expect_parameter(5, 255, 5);
    expect_parameter(6, 255, 0);
}

#[test]
fn all_four_bytes_of_a_parameter_count() {
    for byte in 1..4 {
        expect_parameter(3, 3 + (1 << (8 * byte)), 5);
    }
}

#[test]
fn two_users_may_share_a_parameter() {
    let mut base = BaseBuilder::new(3);
    base.users = vec![User::always(15); 2];
    expect_check(&base.bytes(), 0);
}

#[test]
fn a_bad_user_is_found_at_every_place() {
    for place in 0..24 {
        let mut base = BaseBuilder::new(3);
        base.users = vec![User::always(7); 24];
        base.users[place].parameter = 49;
        expect_check(&base.bytes(), 5);
    }
}

/// For 1 no code is tried, for 3 one is.
#[test]
fn a_bad_user_is_found_among_users_of_few_roles() {
    for parameter in [1, 3] {
        for place in 0..24 {
            let mut base = BaseBuilder::new(8);
            base.users = vec![User::always(parameter); 24];
            base.users[place].parameter = 29 * parameter;
            expect_check(&base.bytes(), 5);
        }
    }
}

/// Expects this answer for a base of one user with these days.
fn expect_days(first_day: u16, last_day: u16, answer: u8) {
    let mut base = BaseBuilder::new(3);
    base.users.push(User {
        first_day,
        last_day,
        parameter: 15,
    });
    expect_check(&base.bytes(), answer);
}

#[test]
fn days_0_and_65535_pass() {
    expect_days(0, 65_535, 0);
}

#[test]
fn one_day_passes() {
    for day in [1, 254, 255, 256, 32_767, 32_768, 65_534] {
        expect_days(day, day, 0);
    }
}

#[test]
fn the_first_day_alone_and_the_last_day_alone_pass() {
    expect_days(0, 0, 0);
    expect_days(65_535, 65_535, 0);
}

#[test]
fn a_first_day_above_the_last_by_one_is_refused() {
    for last in [0, 1, 127, 128, 255, 256, 32_767, 32_768, 65_534] {
        expect_days(last + 1, last, 5);
        expect_days(last, last + 1, 0);
    }
}

#[test]
fn a_first_day_far_above_the_last_is_refused() {
    expect_days(65_535, 0, 5);
    expect_days(65_535, 32_767, 5);
    expect_days(32_768, 0, 5);
    expect_days(256, 0, 5);
}

/// 0x0100 is above 0x00ff, though its low byte is below.
#[test]
fn days_are_little_endian() {
    let mut base = BaseBuilder::new(3);
    base.users.push(User::always(15));
    let mut bytes = base.bytes();
    assert_eq!(bytes[..8], [15, 0, 0, 0, 0, 0, 255, 255]);
    for (days, answer) in [
        ([0x00, 0x01, 0xff, 0x00], 5),
        ([0xff, 0x00, 0x00, 0x01], 0),
        ([0x01, 0x00, 0x00, 0x01], 0),
        ([0x00, 0x01, 0x01, 0x00], 5),
        ([0xff, 0x01, 0x00, 0x02], 0),
        ([0x00, 0x02, 0xff, 0x01], 5),
    ] {
        bytes[4..8].copy_from_slice(&days);
        expect_check(&bytes, answer);
    }
}

#[test]
fn all_days_are_free_whatever_the_parameter_is() {
    let mut base = BaseBuilder::new(8);
    base.users = [1, 3, 23, 111_546_435].map(User::always).to_vec();
    base.users[0].last_day = 0;
    base.users[1].first_day = 65_535;
    base.users[3].last_day = 7;
    expect_check(&base.bytes(), 0);
}

#[test]
fn two_users_may_share_days_and_a_user_may_have_others() {
    let mut shop = small_shop();
    for (user, first, last) in [(0, 5, 5), (1, 5, 5), (2, 6, 600), (3, 0, 4)] {
        shop.users[user].set_days(first, last);
    }
    expect_check(&shop.bytes(), 0);
}

#[test]
fn turned_days_are_found_at_every_place() {
    for place in 0..24 {
        let mut base = BaseBuilder::new(3);
        base.users = vec![User::always(7); 24];
        base.users[place].set_days(299, 299);
        expect_check(&base.bytes(), 0);
        base.users[place].set_days(300, 299);
        expect_check(&base.bytes(), 5);
    }
}

/// One user's first day isn't held against another user's last day.
#[test]
fn each_user_has_days_of_its_own() {
    let mut shop = small_shop();
    shop.users[0].set_days(600, 700);
    shop.users[1].set_days(1, 2);
    expect_check(&shop.bytes(), 0);
}

/// Either fault gets 5, and both do.
#[test]
fn turned_days_in_the_last_user_and_a_bad_parameter_in_the_first() {
    let turned = || {
        let mut shop = small_shop();
        shop.users[3].set_days(1, 0);
        shop
    };
    expect_check(&turned().bytes(), 5);
    let mut both = turned();
    both.users[0].parameter = 9;
    expect_check(&both.bytes(), 5);
    let mut parameter_alone = small_shop();
    parameter_alone.users[0].parameter = 9;
    expect_check(&parameter_alone.bytes(), 5);
}

#[test]
fn turned_days_and_a_bad_parameter_in_the_same_user() {
    let mut shop = small_shop();
    shop.users[2].set_days(1, 0);
    shop.users[2].parameter = 0;
    expect_check(&shop.bytes(), 5);
}
