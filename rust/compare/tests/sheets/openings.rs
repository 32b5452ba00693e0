//! Opening: which permissions are there, and all 14 bytes of the sheet.

use crate::setups::*;
use compare::builder::BaseBuilder;
use compare::shop::small_shop;

/// The unsigned sheet for permission 255.
const REFUSED: [u8; 14] = [255, 0, 0, 0, 0, 0, 0, 0, 0, 0, 0, 0, 0, 0];

#[test]
fn an_opened_sheet_is_unsigned_whatever_it_held() {
    let base = BaseBuilder::new(1).with_permissions(16).bytes();
    for permission in 0..16 {
        let unsigned = [permission, 0, 0, 0, 0, 0, 0, 0, 0, 0, 0, 0, 0, 0];
        expect_open(&base, permission.into(), 0, unsigned);
    }
}

#[test]
fn a_permission_that_is_not_there_gets_10_and_a_sheet_for_255() {
    let base = BaseBuilder::new(1).with_permissions(16).bytes();
    for permission in [16, 17, 127, 128, 254, 255] {
        expect_open(&base, permission, 10, REFUSED);
    }
}

#[test]
fn a_permission_is_not_cut_to_a_byte() {
    for base in [small_shop().bytes(), open_base().bytes()] {
        for permission in [256, 257, 65_536, 65_537, 1 << 24, 1 << 31, u32::MAX] {
            expect_open(&base, permission, 10, REFUSED);
        }
    }
}

#[test]
fn no_power_of_2_is_cut_to_0() {
    for power in 0..32 {
        expect_open(&small_shop().bytes(), 1 << power, 10, REFUSED);
    }
    expect_open(&small_shop().bytes(), 0, 0, [0; 14]);
}

#[test]
fn of_no_permissions_none_is_there() {
    let base = BaseBuilder::new(8).bytes();
    for permission in [0, 1, 255, 256, u32::MAX] {
        expect_open(&base, permission, 10, REFUSED);
    }
}

#[test]
fn a_refused_base_gives_a_sheet_for_255() {
    for (refusal, base) in (1..).zip(refused_bases()) {
        expect_open(&base, 0, refusal, REFUSED);
    }
}

#[test]
fn refusals_1_to_9_beat_10() {
    for (refusal, base) in (1..).zip(refused_bases()) {
        for permission in [1, 255, 256] {
            expect_open(&base, permission, refusal, REFUSED);
        }
    }
}

/// Nobody needs to be able to sign, nor any group to be granted.
#[test]
fn opening_looks_at_the_permission_alone() {
    let base = BaseBuilder::new(1).with_permissions(1).bytes();
    expect_open(&base, 0, 0, [0; 14]);
}
