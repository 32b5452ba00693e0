//! Sums that a clause caps, where heavier users stand before the lighter ones.

use crate::setups::*;
use compare::builder::*;

/// Six users of a role each that weighs 5, and behind them two of one that
/// weighs 1.
fn heavy_first(conditions: &[GroupCondition], k: u8) {
    let heavy: [&[u8]; 8] = [&[0], &[1], &[2], &[3], &[4], &[5], &[6], &[6]];
    let weights = [5, 5, 5, 5, 5, 5, 1];
    expect_one(&weights, &heavy, &[conditions], k);
    let light_first: Vec<&[u8]> = heavy.into_iter().rev().collect();
    expect_one(&weights, &light_first, &[conditions], k);
}

#[test]
fn by_less() {
    for (entries, below, k) in [
        (1, 5, 1),
        (1, 2, 1),
        (1, 1, 0),
        (2, 6, 2),
        (2, 3, 2),
        (2, 2, 0),
        (3, 8, 3),
        (3, 7, 0),
        (6, 23, 6),
        (6, 22, 0),
    ] {
        heavy_first(&[(0, 2, entries), (1, 1, below)], k);
        heavy_first(&[(1, 3, below - 1), (0, 2, entries)], k);
    }
}

/// Two of weight 1 and up to six of weight 5, six entries in all.
#[test]
fn by_equal() {
    for (sum, k) in [
        (1, 1),
        (2, 2),
        (3, 0),
        (5, 1),
        (6, 2),
        (7, 3),
        (8, 0),
        (10, 2),
        (12, 4),
        (17, 5),
        (20, 4),
        (22, 6),
        (25, 5),
        (26, 6),
        (27, 0),
        (30, 6),
        (31, 0),
        (32, 0),
    ] {
        heavy_first(&[(1, 4, sum)], k);
        heavy_first(&[(1, 2, sum), (1, 3, sum)], k);
    }
}

/// One entry has the sum 1 or 5; two have 2, 6 or 10.
#[test]
fn by_not_equal() {
    heavy_first(&[(1, 5, 1), (1, 5, 5)], 2);
    heavy_first(&[(1, 5, 1), (1, 5, 5), (0, 3, 1)], 0);
    heavy_first(&[(1, 5, 5), (0, 3, 1)], 1);
    heavy_first(&[(1, 5, 2), (1, 5, 6), (0, 4, 2)], 2);
    heavy_first(&[(1, 5, 2), (1, 5, 6), (1, 5, 10), (0, 4, 2)], 0);
    heavy_first(&[(1, 5, 2), (1, 5, 6), (1, 5, 10), (0, 2, 2)], 3);
    heavy_first(&[(1, 5, 30), (1, 5, 26), (1, 5, 22), (0, 4, 6)], 0);
    heavy_first(&[(1, 5, 30), (1, 5, 26), (0, 4, 6)], 6);
}

/// Role 0 weighs 40, role 1 35 and so on, down to 5, and all hold roles 0, 1
/// and 7: one to six entries have up to 40, 80, 120, 160, 200 and 240.
#[test]
fn high_sums() {
    let chain = |conditions: &[GroupCondition]| BaseBuilder {
        hierarchy: (1..8)
            .map(|junior| Edge {
                senior: junior - 1,
                junior,
            })
            .collect(),
        policies: (0..8)
            .map(|role| Policy::new(role, 0, 5, 1, NO_CONTEXT))
            .collect(),
        ..base_of(&[0; 8], vec![user(&[0, 1, 7]); 7], &[conditions])
    };
    for (entries, k) in [(1, 2), (2, 3), (3, 4), (4, 5), (5, 6), (6, 0)] {
        let highest = 40 * entries;
        expect_numbers(&chain(&[(1, 2, highest)]), &[entries]);
        expect_numbers(&chain(&[(1, 2, highest), (1, 5, highest)]), &[k]);
        expect_numbers(&chain(&[(1, 0, highest)]), &[k]);
        let but = [(1, 2, highest), (1, 5, highest), (0, 3, entries)];
        expect_numbers(&chain(&but), &[0]);
        let second = [(1, 2, highest - 5), (1, 5, highest), (0, 3, entries)];
        expect_numbers(&chain(&second), &[entries]);
        let below = [(1, 1, highest), (1, 2, highest - 5), (1, 5, highest - 5)];
        expect_numbers(&chain(&below), &[0]);
    }
    expect_numbers(&chain(&[(1, 2, 230), (1, 5, 230), (1, 5, 235)]), &[6]);
    let none = [(1, 2, 230), (1, 5, 230), (1, 5, 235), (1, 5, 240)];
    expect_numbers(&chain(&none), &[0]);
}

/// From 11 to 15 but neither 12 nor 14, of weights 14, 10, 6 and 2: no odd
/// sum. With a role that weighs 1 there is one.
#[test]
fn sums_that_no_weights_make() {
    let odd: &[GroupCondition] = &[(1, 2, 11), (1, 3, 15), (1, 5, 12), (1, 5, 14)];
    let chain = |lightest: Option<u8>| {
        let weights = [4, 4, 4, 2];
        let policies = (0..).zip(weights);
        let mut base = base_of(&[0; 5], vec![user(&[0, 1, 2, 3, 4]); 24], &[odd]);
        base.hierarchy = (1..4)
            .map(|junior| Edge {
                senior: junior - 1,
                junior,
            })
            .collect();
        base.policies = policies
            .map(|(role, weight)| Policy::new(role, 0, weight, 1, NO_CONTEXT))
            .collect();
        let last = lightest.map(|weight| Policy::new(4, 0, weight, 0, NO_CONTEXT));
        base.policies.extend(last);
        base
    };
    expect_with_more_roles(&chain(None), &[0]);
    expect_with_more_roles(&chain(Some(1)), &[2]);
    expect_with_more_roles(&chain(Some(3)), &[2]);
    expect_with_more_roles(&chain(Some(4)), &[0]);
}
