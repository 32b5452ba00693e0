//! The kinds of random bases, for tests of what comes up in them.

use crate::builder::BaseBuilder;
use crate::capped::capped_base;
use crate::clashing::clashing_base;
use crate::lively::{full_base, heavy_base, lively_base};
use crate::random::Random;
use crate::sparse::sparse_base;
use crate::valid::{random_base, Size};

pub type Make = fn(&mut Random) -> BaseBuilder;

pub const KINDS: [(&str, Make); 8] = [
    ("small", |random| random_base(random, Size::Small)),
    ("any", |random| random_base(random, Size::Any)),
    ("lively", |random| lively_base(random, 24)),
    ("full", full_base),
    ("heavy", heavy_base),
    ("sparse", |random| sparse_base(random, 24)),
    ("capped", |random| capped_base(random, 6)),
    ("clashing", clashing_base),
];
