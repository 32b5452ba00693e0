//! Refusals 1 to 3: length, letters and the rest of the trailer.

use compare::builder::{BaseBuilder, Trailer, User, LETTERS, OLD_LETTERS};
use compare::expect_check;
use compare::random::Random;
use compare::shop::small_shop;
use compare::valid::{random_base, Size};

/// A base of one role without records: 36 bytes.
fn tiny() -> Vec<u8> {
    BaseBuilder::new(1).bytes()
}

/// A base with every table full: 2,460 bytes.
fn largest() -> Vec<u8> {
    random_base(&mut Random::new(5), Size::Full).bytes()
}

/// The base with `count` zero bytes before it.
fn preceded(count: usize, base: &[u8]) -> Vec<u8> {
    [&vec![0; count][..], base].concat()
}

#[test]
fn length_0_is_too_short() {
    expect_check(&[], 1);
}

#[test]
fn length_4_with_good_letters_is_too_short() {
    expect_check(&LETTERS, 1);
}

#[test]
fn length_35_with_good_letters_is_too_short() {
    expect_check(&tiny()[1..], 1);
}

#[test]
fn length_35_with_bad_letters_is_too_short() {
    expect_check(&tiny()[..35], 1);
}

#[test]
fn length_36_passes() {
    assert_eq!(tiny().len(), 36);
    expect_check(&tiny(), 0);
}

#[test]
fn length_36_of_zero_bytes_has_no_letters() {
    expect_check(&[0; 36], 2);
}

#[test]
fn length_2460_passes() {
    assert_eq!(largest().len(), 2460);
    expect_check(&largest(), 0);
}

#[test]
fn length_2460_of_zero_bytes_has_no_letters() {
    expect_check(&[0; 2460], 2);
}

#[test]
fn length_2461_with_good_letters_is_too_long() {
    expect_check(&preceded(1, &largest()), 1);
}

#[test]
fn length_2461_with_bad_letters_is_too_long() {
    expect_check(&[&largest()[..], &[0]].concat(), 1);
}

#[test]
fn length_2460_with_a_gap_is_not_filled() {
    let base = preceded(2460 - 36, &tiny());
    assert_eq!(base.len(), 2460);
    expect_check(&base, 3);
}

#[test]
fn length_is_not_cut_to_16_bits() {
    expect_check(&preceded(65_536, &tiny()), 1);
    expect_check(&preceded(65_536, &largest()), 1);
}

fn tiny_with(change: impl FnOnce(&mut Trailer)) -> Vec<u8> {
    BaseBuilder::new(1).bytes_with(change)
}

#[test]
fn each_of_the_four_letters_counts() {
    for place in 0..4 {
        let base = tiny_with(|trailer| trailer.letters[place] += 1);
        expect_check(&base, 2);
    }
}

#[test]
fn small_letters_are_refused() {
    expect_check(&tiny_with(|trailer| trailer.letters = *b"lcaq"), 2);
}

#[test]
fn letters_in_another_order_are_refused() {
    expect_check(&tiny_with(|trailer| trailer.letters = *b"QACL"), 2);
}

#[test]
fn the_old_letters_are_refused() {
    assert_eq!(OLD_LETTERS, *b"LCAP");
    expect_check(&tiny_with(|trailer| trailer.letters = OLD_LETTERS), 2);
    let shop = small_shop().bytes_with(|trailer| trailer.letters = OLD_LETTERS);
    expect_check(&shop, 2);
}

/// The old form has a user's parameter alone: the small shop's tables behind its
/// four users lie 16 bytes earlier.
#[test]
fn the_old_form_is_refused() {
    let old = small_shop().old_bytes(OLD_LETTERS);
    assert_eq!(old.len(), 130 - 16);
    expect_check(&old, 2);
}

/// Four users take 32 bytes, so that P has to lie at 36 and not 16 bytes earlier.
#[test]
fn the_old_form_with_the_new_letters_does_not_fill_its_bytes() {
    expect_check(&small_shop().old_bytes(LETTERS), 3);
    let mut one_user = BaseBuilder::new(1);
    one_user.users.push(User::always(3));
    expect_check(&one_user.old_bytes(LETTERS), 3);
    expect_check(&one_user.old_bytes(OLD_LETTERS), 2);
}

/// Without users the two forms differ in the letters alone.
#[test]
fn the_old_form_without_users_needs_the_new_letters() {
    let mut shop = small_shop();
    shop.users.clear();
    expect_check(&shop.old_bytes(LETTERS), 0);
    expect_check(&shop.old_bytes(OLD_LETTERS), 2);
}

/// The longest base of the old form is shorter by the days of 24 users, and one of
/// 2,461 bytes is too long in whatever letters.
#[test]
fn length_comes_before_the_old_letters() {
    let full = random_base(&mut Random::new(6), Size::Full);
    let old = full.old_bytes(OLD_LETTERS);
    let days = 24 * 4;
    assert_eq!(old.len(), 2460 - days);
    expect_check(&old, 2);
    expect_check(&preceded(days + 1, &old), 1);
    expect_check(&preceded(days, &old), 2);
    expect_check(&preceded(days, &full.old_bytes(LETTERS)), 3);
}

#[test]
fn letters_come_before_the_number_of_roles() {
    expect_check(&tiny_with(|trailer| trailer.roles = 9), 3);
    let base = tiny_with(|trailer| {
        trailer.roles = 9;
        trailer.letters[3] = b'q';
    });
    expect_check(&base, 2);
}

#[test]
fn letters_come_before_the_places() {
    let base = tiny_with(|trailer| {
        trailer.places[0].offset = 1;
        trailer.letters[0] = 0;
    });
    expect_check(&base, 2);
}

#[test]
fn length_comes_before_the_letters_and_places() {
    let base = tiny_with(|trailer| {
        trailer.letters[0] = 0;
        trailer.places[0].offset = 1;
    });
    expect_check(&preceded(2460, &base), 1);
}

#[test]
fn no_roles_are_too_few() {
    expect_check(&BaseBuilder::new(0).bytes(), 3);
}

#[test]
fn one_role_passes() {
    expect_check(&BaseBuilder::new(1).bytes(), 0);
}

#[test]
fn eight_roles_pass() {
    expect_check(&BaseBuilder::new(8).bytes(), 0);
}

#[test]
fn nine_roles_are_too_many() {
    expect_check(&BaseBuilder::new(9).bytes(), 3);
}

#[test]
fn roles_255_are_too_many() {
    expect_check(&BaseBuilder::new(255).bytes(), 3);
}

#[test]
fn byte_29_of_the_trailer_is_zero() {
    expect_check(&tiny_with(|trailer| trailer.zeros[0] = 1), 3);
}

#[test]
fn byte_30_of_the_trailer_is_zero() {
    expect_check(&tiny_with(|trailer| trailer.zeros[1] = 255), 3);
}

#[test]
fn byte_31_of_the_trailer_is_zero() {
    expect_check(&tiny_with(|trailer| trailer.zeros[2] = 128), 3);
}

#[test]
fn an_empty_base_has_all_offsets_at_0() {
    for table in 0..7 {
        let base = tiny_with(|trailer| trailer.places[table].offset = 1);
        expect_check(&base, 3);
    }
}

/// One user: H lies at 0, U at 0, and the empty tables behind U at 8.
fn one_user_with(change: impl FnOnce(&mut Trailer)) -> Vec<u8> {
    let mut base = BaseBuilder::new(1);
    base.users.push(User::always(1));
    base.bytes_with(change)
}

#[test]
fn an_empty_table_at_the_running_offset_passes() {
    let base = one_user_with(|trailer| {
        let offsets: Vec<u16> = trailer.places.iter().map(|place| place.offset).collect();
        assert_eq!(offsets, [0, 0, 8, 8, 8, 8, 8]);
    });
    expect_check(&base, 0);
}

#[test]
fn an_empty_table_before_the_running_offset_is_refused() {
    for table in 2..7 {
        let base = one_user_with(|trailer| trailer.places[table].offset = 0);
        expect_check(&base, 3);
    }
}

#[test]
fn an_empty_table_behind_the_running_offset_is_refused() {
    for table in 0..7 {
        let base = one_user_with(|trailer| trailer.places[table].offset += 8);
        expect_check(&base, 3);
    }
}

#[test]
fn the_last_table_is_empty_and_still_lies_at_the_running_offset() {
    let base = small_shop().bytes_with(|trailer| {
        assert_eq!(trailer.places[6].count, 0);
        trailer.places[6].offset = 0;
    });
    expect_check(&base, 3);
}

#[test]
fn each_offset_of_the_small_shop_counts() {
    for table in 0..7 {
        for change in [1, 255, 256, u16::MAX] {
            let base = small_shop().bytes_with(|trailer| {
                let offset = &mut trailer.places[table].offset;
                *offset = offset.wrapping_add(change);
            });
            expect_check(&base, 3);
        }
    }
}

#[test]
fn each_count_of_the_small_shop_counts() {
    for table in 0..7 {
        for change in [1, 256, u16::MAX] {
            let base = small_shop().bytes_with(|trailer| {
                let count = &mut trailer.places[table].count;
                *count = count.wrapping_add(change);
            });
            expect_check(&base, 3);
        }
    }
}

#[test]
fn a_gap_before_the_first_table_is_refused() {
    let base = small_shop().bytes_with(|trailer| {
        for place in &mut trailer.places {
            place.offset += 1;
        }
    });
    expect_check(&preceded(1, &base), 3);
}

#[test]
fn tables_in_another_order_are_refused() {
    let mut base = BaseBuilder::new(1);
    base.users.push(User::always(1));
    let base = base.with_permissions(4).bytes_with(|trailer| {
        trailer.places[1].offset = 8;
        trailer.places[2].offset = 0;
    });
    expect_check(&base, 3);
}
