//! Bytes of stack that a call takes: the stack below the caller is painted,
//! and the lowest byte that the call has painted over is looked for.

use std::fs::File;
use std::hint::black_box;
use std::os::unix::fs::FileExt;
use std::thread;

use crate::cases::{Buffer, Case, Who, ALL};
use crate::counting::measured;

const PAINT: u8 = 0xa5;

/// So much is painted: more than any call takes.
const PAINTED: usize = 2 << 20;

/// The bytes of stack that a call by each of [`ALL`] takes, with the wrapper's
/// frames.
pub fn bytes(case: &Case) -> [f64; 3] {
    ALL.map(|who| bytes_by(case, who) as f64)
}

/// In a thread of its own, so that what it may paint is known.
pub fn bytes_by(case: &Case, who: Who) -> usize {
    thread::scope(|scope| {
        let thread = thread::Builder::new().stack_size(2 * PAINTED);
        let measured = thread.spawn_scoped(scope, || depth(case, who));
        measured
            .expect("a thread starts")
            .join()
            .expect("the call ends")
    })
}

fn depth(case: &Case, who: Who) -> usize {
    let memory = File::open("/proc/self/mem").expect("the memory can be read");
    let mut below = vec![0; PAINTED];
    let mut out: Box<Buffer> = Box::new([0; 3 * 2_784]);
    let mut here = 0;
    let top = std::ptr::from_mut(black_box(&mut here)) as usize;
    paint();
    measured(case, who, &mut out);
    let read = memory.read_exact_at(&mut below, (top - PAINTED) as u64);
    read.expect("the stack can be read");
    let untouched = below.iter().position(|&byte| byte != PAINT);
    PAINTED - untouched.expect("something was called")
}

/// Leaves paint where the next call's frames will lie.
#[inline(never)]
fn paint() {
    black_box(&mut [PAINT; PAINTED]);
}

#[cfg(test)]
mod tests {
    use super::*;
    use crate::cases::{batches, cases, report, Call};
    use crate::worst::gaps;
    use compare::shop::small_shop;

    /// Makes the call in a thread with so many bytes of stack.
    fn call_within(stack: usize, case: &Case, who: Who) {
        let mut out: Box<Buffer> = Box::new([0; 3 * 2_784]);
        thread::scope(|scope| {
            let thread = thread::Builder::new().stack_size(stack);
            let call = thread.spawn_scoped(scope, || measured(case, who, &mut out));
            call.expect("a thread starts")
                .join()
                .expect("the call ends");
        });
    }

    fn is_report(call: Call) -> bool {
        matches!(call, Call::Report | Call::ReportBy | Call::ReportVouched)
    }

    /// On every base that is measured, those that cost most among them.
    #[test]
    fn a_report_takes_less_than_48_000_bytes() {
        let all = cases().into_iter();
        for case in all.filter(|case| is_report(case.call)) {
            for who in [Who::Twin, Who::Library] {
                let taken = bytes_by(&case, who);
                assert!(taken < 48_000, "{}: {taken} by {who:?}", case.name);
                call_within(1 << 16, &case, who);
            }
        }
    }

    #[test]
    fn a_batch_takes_less_than_48_000_bytes() {
        for case in batches() {
            for who in [Who::Twin, Who::Library] {
                let taken = bytes_by(&case, who);
                assert!(taken < 48_000, "{}: {taken} by {who:?}", case.name);
                call_within(1 << 16, &case, who);
            }
        }
    }

    #[test]
    fn every_other_call_takes_less_than_4_096_bytes() {
        let all = cases().into_iter();
        for case in all.filter(|case| !is_report(case.call)) {
            let taken = bytes_by(&case, Who::Library);
            assert!(taken < 4_096, "{}: {taken}", case.name);
        }
    }

    /// The twin's tables take 17,328 bytes with eight roles, 3,840 with up to
    /// five, and masks 4,096.
    #[test]
    fn the_twins_report_takes_what_its_tables_take() {
        let taken = |base: &[u8]| bytes_by(&report("", base), Who::Twin);
        let (eight, few) = (taken(&gaps().bytes()), taken(&small_shop().bytes()));
        assert!((21_424..32_000).contains(&eight), "{eight}");
        assert!((7_936..16_000).contains(&few), "{few}");
    }
}
