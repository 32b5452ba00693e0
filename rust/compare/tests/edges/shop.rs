//! The paper's example.

use compare::expect_check;
use compare::shop::small_shop;

#[test]
fn the_small_shop_passes() {
    expect_check(&small_shop().bytes(), 0);
}

#[test]
fn the_small_shop_has_130_bytes() {
    assert_eq!(small_shop().bytes().len(), 130);
}

#[test]
fn the_small_shops_offsets_are_the_papers() {
    let mut offsets = Vec::new();
    small_shop().bytes_with(|trailer| {
        offsets.extend(trailer.places.iter().map(|place| place.offset));
    });
    assert_eq!(offsets, [0, 4, 36, 38, 54, 70, 94]);
}

#[test]
fn the_small_shop_one_byte_short_is_refused() {
    let base = small_shop().bytes();
    expect_check(&base[1..], 3);
    expect_check(&base[..129], 2);
}

#[test]
fn the_small_shop_one_byte_long_is_refused() {
    let base = small_shop().bytes();
    expect_check(&[&[0], &base[..]].concat(), 3);
    expect_check(&[&base[..], &[0]].concat(), 2);
}
