//! What a report costs by its counts, as far as instructions are linear in
//! them.

use compare::questions::at_minute;
use compare::random::Random;
use twin::counts::counts;

use crate::cases::Who;
use crate::climb::changed;
use crate::counting::of_report;
use crate::worst;

/// One, and the counts.
const TERMS: usize = 13;

/// What one of each term costs the twin, by `bench --fit 1 400 twin`.
const COSTS: [f64; TERMS] = [
    45723.3, 0.0, 29.9, 278.2, 2.1, 6.5, 5.3, 486.7, 0.4, 5.4, 24.0, 63.8, 177.5,
];

/// A report's terms and its instructions.
type Sample = ([f64; TERMS], f64);

/// About how many instructions the twin's report on the base takes.
pub fn cost(base: &[u8]) -> f64 {
    dot(&COSTS, &terms(base))
}

fn terms(base: &[u8]) -> [f64; TERMS] {
    let mut terms = [1.0; TERMS];
    let counts = counts(base, at_minute(600)).numbers();
    for (term, count) in terms[1..].iter_mut().zip(counts) {
        *term = count as f64;
    }
    terms
}

fn dot(one: &[f64; TERMS], other: &[f64; TERMS]) -> f64 {
    one.iter().zip(other).map(|(x, y)| x * y).sum()
}

/// Prints the costs that fit best to the instructions of reports on bases near
/// those made to cost most, and how far off they are for the dearest quarter.
pub fn print(seed: u64, bases: u64, who: Who) {
    let mut random = Random::new(seed);
    let sample = |_| {
        let base = near_worst(&mut random);
        (terms(&base), of_report(&base, who) as f64)
    };
    let mut samples: Vec<Sample> = (0..bases).map(sample).collect();
    samples.sort_by(|one, other| one.1.total_cmp(&other.1));
    let costs = least_squares(&samples);
    let dear = samples[samples.len() / 4 * 3..].iter();
    let off = dear.map(|(terms, count)| (dot(&costs, terms) / count - 1.0).abs());
    println!("{costs:.1?}");
    println!("off by up to {:.4} of the whole", off.fold(0.0, f64::max));
}

/// A base made to cost most, with some changes.
fn near_worst(random: &mut Random) -> Vec<u8> {
    let all = worst::all();
    let (_, mut base) = all[random.below(all.len())].clone();
    for _ in 0..random.pick(&[0, 1, 3, 10, 30]) {
        base = changed(random, &base);
    }
    base.bytes()
}

/// The costs for which the squares of what is left over have the least sum: by
/// the equations that their slopes give. Each term is taken as a part of its
/// largest value.
fn least_squares(samples: &[Sample]) -> [f64; TERMS] {
    let largest: [f64; TERMS] = std::array::from_fn(|i| {
        let values = samples.iter().map(|(terms, _)| terms[i]);
        values.fold(1.0, f64::max)
    });
    let mut rows = [[0.0; TERMS + 1]; TERMS];
    for (terms, count) in samples {
        let parts: [f64; TERMS] = std::array::from_fn(|i| terms[i] / largest[i]);
        for (row, part) in rows.iter_mut().zip(parts) {
            let all = parts.iter().chain([count]);
            row.iter_mut().zip(all).for_each(|(x, y)| *x += part * y);
        }
    }
    let solved = solve(rows);
    std::array::from_fn(|i| solved[i] / largest[i])
}

/// Gauss's elimination. A term that tells nothing new costs nothing.
fn solve(mut rows: [[f64; TERMS + 1]; TERMS]) -> [f64; TERMS] {
    let new = |pivot: f64| pivot.abs() > 1e-6;
    for column in 0..TERMS {
        let pivot = rows[column];
        if !new(pivot[column]) {
            continue;
        }
        for (i, row) in rows.iter_mut().enumerate() {
            let part = if i == column {
                0.0
            } else {
                row[column] / pivot[column]
            };
            row.iter_mut().zip(pivot).for_each(|(x, y)| *x -= part * y);
        }
    }
    std::array::from_fn(|i| match new(rows[i][i]) {
        true => rows[i][TERMS] / rows[i][i],
        false => 0.0,
    })
}

#[cfg(test)]
mod tests {
    use super::*;

    #[test]
    fn costs_that_are_linear_are_found() {
        let mut random = Random::new(8);
        let costs: [f64; TERMS] = std::array::from_fn(|i| (10 * i) as f64);
        let mut sample = || {
            let terms = std::array::from_fn(|_| random.below(1_000) as f64);
            (terms, dot(&costs, &terms))
        };
        let samples: Vec<Sample> = (0..100).map(|_| sample()).collect();
        let found = least_squares(&samples);
        let off = found.iter().zip(costs).map(|(x, y)| (x - y).abs());
        assert!(off.fold(0.0, f64::max) < 0.001, "{found:?}");
    }
}
