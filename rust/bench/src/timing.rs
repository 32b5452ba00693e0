//! Nanoseconds a call.

use std::hint::black_box;
use std::time::{Duration, Instant};

use crate::cases::{Buffer, Case, Who, ALL};

/// A batch takes about so long, or as long as one call.
const BATCH: Duration = Duration::from_micros(200);

/// So long the three take turns on a case, a batch each, and so often at least.
const TURNS: Duration = Duration::from_millis(200);
const FEWEST: usize = 5;

/// So often all cases come round: what disturbs a case in one round need not
/// disturb it in the next.
const ROUNDS: usize = 8;

/// The least time a call by each of [`ALL`], for each case.
pub fn least_times(cases: &[Case]) -> Vec<[f64; 3]> {
    let mut least = vec![[f64::INFINITY; 3]; cases.len()];
    for _ in 0..ROUNDS {
        for (case, least) in cases.iter().zip(&mut least) {
            take_turns(case, least);
        }
    }
    least
}

fn take_turns(case: &Case, least: &mut [f64; 3]) {
    let sizes = ALL.map(|who| batch_size(case, who));
    let start = Instant::now();
    let mut turns = 0;
    while turns < FEWEST || start.elapsed() < TURNS {
        for (place, who) in ALL.into_iter().enumerate() {
            let time = batch(case, who, sizes[place]);
            let each = time.as_nanos() as f64 / f64::from(sizes[place]);
            least[place] = least[place].min(each);
        }
        turns += 1;
    }
}

/// How many calls take as long as a batch should.
fn batch_size(case: &Case, who: Who) -> u32 {
    let mut size = 1;
    while batch(case, who, size) < BATCH {
        size *= 2;
    }
    size
}

fn batch(case: &Case, who: Who, size: u32) -> Duration {
    let mut out: Buffer = [0; 3 * 2_784];
    let start = Instant::now();
    for _ in 0..size {
        black_box(black_box(case).answer(who, black_box(&mut out)));
    }
    start.elapsed()
}
