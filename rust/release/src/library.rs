//! The library's functions. All that is unsafe in this crate stands here.

use crate::context::Context;
use crate::sheet::SHEET_BYTES;

/// As in `include/release.h`.
mod foreign {
    unsafe extern "C" {
        pub fn release_check(base: *const u8, base_len: usize) -> u32;

        pub fn release_decide(
            base: *const u8,
            base_len: usize,
            permission: u32,
            minute: u32,
            day: u32,
            zone: u32,
            date: u32,
            group: *const u8,
            group_len: usize,
        ) -> u32;

        pub fn release_decide_by(
            base: *const u8,
            base_len: usize,
            permission: u32,
            minute: u32,
            day: u32,
            zone: u32,
            date: u32,
            list: *const u8,
            list_len: usize,
            group: *const u8,
            group_len: usize,
        ) -> u32;

        pub fn release_report(
            base: *const u8,
            base_len: usize,
            minute: u32,
            day: u32,
            zone: u32,
            date: u32,
            out: *mut u8,
            out_len: usize,
        ) -> u64;

        pub fn release_report_by(
            base: *const u8,
            base_len: usize,
            minute: u32,
            day: u32,
            zone: u32,
            date: u32,
            list: *const u8,
            list_len: usize,
            out: *mut u8,
            out_len: usize,
        ) -> u64;

        pub fn release_vouch_decide(
            base: *const u8,
            base_len: usize,
            permission: u32,
            minute: u32,
            day: u32,
            zone: u32,
            date: u32,
            register: *const u8,
            register_len: usize,
            threshold: u32,
            group: *const u8,
            group_len: usize,
        ) -> u32;

        pub fn release_vouch_report(
            base: *const u8,
            base_len: usize,
            minute: u32,
            day: u32,
            zone: u32,
            date: u32,
            register: *const u8,
            register_len: usize,
            threshold: u32,
            requester: u32,
            out: *mut u8,
            out_len: usize,
        ) -> u64;

        pub fn release_batch(
            base: *const u8,
            base_len: usize,
            minute: u32,
            day: u32,
            zone: u32,
            date: u32,
            queries: *const u8,
            queries_len: usize,
            answers: *mut u8,
            answers_len: usize,
        ) -> u32;

        pub fn release_conflicts(
            base: *const u8,
            base_len: usize,
            out: *mut u8,
            out_len: usize,
        ) -> u64;

        pub fn release_bound(
            base: *const u8,
            base_len: usize,
            policy: u32,
            weight: u32,
            group: *const u8,
            group_len: usize,
        ) -> u64;

        pub fn release_parameter(parameter: u32, roles: u32) -> u64;

        pub fn release_sheet_open(
            base: *const u8,
            base_len: usize,
            permission: u32,
            sheet: *mut u8,
        ) -> u32;

        pub fn release_sheet_sign(
            base: *const u8,
            base_len: usize,
            user: u32,
            role: u32,
            sheet: *mut u8,
        ) -> u32;

        pub fn release_sheet_withdraw(user: u32, sheet: *mut u8) -> u32;

        pub fn release_sheet_ask(
            base: *const u8,
            base_len: usize,
            minute: u32,
            day: u32,
            zone: u32,
            date: u32,
            sheet: *const u8,
        ) -> u32;
    }
}

pub fn check(base: &[u8]) -> u32 {
    // SAFETY: the pointer and length are those of a slice, which the library
    // only reads, and only during the call.
    unsafe { foreign::release_check(base.as_ptr(), base.len()) }
}

pub fn decide(base: &[u8], permission: u32, at: Context, group: &[u8]) -> u32 {
    // SAFETY: the pointers and lengths are those of two slices, which the
    // library only reads, and only during the call.
    unsafe {
        foreign::release_decide(
            base.as_ptr(),
            base.len(),
            permission,
            at.minute,
            at.day,
            at.zone,
            at.date,
            group.as_ptr(),
            group.len(),
        )
    }
}

pub fn decide_by(base: &[u8], permission: u32, at: Context, list: &[u8], group: &[u8]) -> u32 {
    // SAFETY: the pointers and lengths are those of three slices, which the
    // library only reads, and only during the call.
    unsafe {
        foreign::release_decide_by(
            base.as_ptr(),
            base.len(),
            permission,
            at.minute,
            at.day,
            at.zone,
            at.date,
            list.as_ptr(),
            list.len(),
            group.as_ptr(),
            group.len(),
        )
    }
}

/// The answer as refusal + 256 * count.
pub fn report(base: &[u8], at: Context, out: &mut [u8]) -> u64 {
    // SAFETY: the pointers and lengths are those of two slices that don't
    // overlap. The library only reads the first and writes the second within
    // its length, and only during the call.
    unsafe {
        foreign::release_report(
            base.as_ptr(),
            base.len(),
            at.minute,
            at.day,
            at.zone,
            at.date,
            out.as_mut_ptr(),
            out.len(),
        )
    }
}

/// The answer as refusal + 256 * count.
pub fn report_by(base: &[u8], at: Context, list: &[u8], out: &mut [u8]) -> u64 {
    // SAFETY: the pointers and lengths are those of three slices, of which the
    // third overlaps neither other one. The library only reads the first two and
    // writes the third within its length, and only during the call.
    unsafe {
        foreign::release_report_by(
            base.as_ptr(),
            base.len(),
            at.minute,
            at.day,
            at.zone,
            at.date,
            list.as_ptr(),
            list.len(),
            out.as_mut_ptr(),
            out.len(),
        )
    }
}

pub fn decide_vouched(
    base: &[u8],
    permission: u32,
    at: Context,
    register: &[u8],
    threshold: u32,
    group: &[u8],
) -> u32 {
    // SAFETY: the pointers and lengths are those of three slices, which the
    // library only reads, and only during the call.
    unsafe {
        foreign::release_vouch_decide(
            base.as_ptr(),
            base.len(),
            permission,
            at.minute,
            at.day,
            at.zone,
            at.date,
            register.as_ptr(),
            register.len(),
            threshold,
            group.as_ptr(),
            group.len(),
        )
    }
}

/// The answer as refusal + 256 * count.
pub fn report_vouched(
    base: &[u8],
    at: Context,
    register: &[u8],
    threshold: u32,
    requester: u32,
    out: &mut [u8],
) -> u64 {
    // SAFETY: the pointers and lengths are those of three slices, of which the
    // third overlaps neither other one. The library only reads the first two and
    // writes the third within its length, and only during the call.
    unsafe {
        foreign::release_vouch_report(
            base.as_ptr(),
            base.len(),
            at.minute,
            at.day,
            at.zone,
            at.date,
            register.as_ptr(),
            register.len(),
            threshold,
            requester,
            out.as_mut_ptr(),
            out.len(),
        )
    }
}

pub fn batch(base: &[u8], at: Context, queries: &[u8], answers: &mut [u8]) -> u32 {
    // SAFETY: the pointers and lengths are those of three slices, of which the
    // third overlaps neither other one. The library only reads the first two and
    // writes the third within its length, and only during the call.
    unsafe {
        foreign::release_batch(
            base.as_ptr(),
            base.len(),
            at.minute,
            at.day,
            at.zone,
            at.date,
            queries.as_ptr(),
            queries.len(),
            answers.as_mut_ptr(),
            answers.len(),
        )
    }
}

/// The answer as refusal + 256 * count.
pub fn conflicts(base: &[u8], out: &mut [u8]) -> u64 {
    // SAFETY: the pointers and lengths are those of two slices that don't
    // overlap. The library only reads the first and writes the second within
    // its length, and only during the call.
    unsafe { foreign::release_conflicts(base.as_ptr(), base.len(), out.as_mut_ptr(), out.len()) }
}

/// The answer as refusal + 256 * bound.
pub fn bound(base: &[u8], policy: u32, weight: u32, group: &[u8]) -> u64 {
    // SAFETY: the pointers and lengths are those of two slices, which the
    // library only reads, and only during the call.
    unsafe {
        foreign::release_bound(
            base.as_ptr(),
            base.len(),
            policy,
            weight,
            group.as_ptr(),
            group.len(),
        )
    }
}

/// The answer as refusal + 256 * tried.
pub fn parameter(parameter: u32, roles: u32) -> u64 {
    // SAFETY: the library is handed two numbers, and no pointer.
    unsafe { foreign::release_parameter(parameter, roles) }
}

pub fn sheet_open(base: &[u8], permission: u32, sheet: &mut [u8; SHEET_BYTES]) -> u32 {
    // SAFETY: the first pointer and the length are those of a slice, the second
    // pointer is that of a sheet's 14 bytes, and the two don't overlap. The
    // library only reads the slice and writes the sheet, and only during the
    // call.
    unsafe {
        foreign::release_sheet_open(base.as_ptr(), base.len(), permission, sheet.as_mut_ptr())
    }
}

pub fn sheet_sign(base: &[u8], user: u32, role: u32, sheet: &mut [u8; SHEET_BYTES]) -> u32 {
    // SAFETY: as for opening.
    unsafe {
        foreign::release_sheet_sign(base.as_ptr(), base.len(), user, role, sheet.as_mut_ptr())
    }
}

pub fn sheet_withdraw(user: u32, sheet: &mut [u8; SHEET_BYTES]) -> u32 {
    // SAFETY: the pointer is that of a sheet's 14 bytes, which the library reads
    // and writes, and only during the call.
    unsafe { foreign::release_sheet_withdraw(user, sheet.as_mut_ptr()) }
}

pub fn sheet_ask(base: &[u8], at: Context, sheet: &[u8; SHEET_BYTES]) -> u32 {
    // SAFETY: the first pointer and the length are those of a slice and the
    // second pointer is that of a sheet's 14 bytes. The library only reads
    // both, and only during the call.
    unsafe {
        foreign::release_sheet_ask(
            base.as_ptr(),
            base.len(),
            at.minute,
            at.day,
            at.zone,
            at.date,
            sheet.as_ptr(),
        )
    }
}
