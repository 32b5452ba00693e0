//! Answers that carry a number.

use crate::refusal::Refusal;

/// 0 or a refusal's number, and a count.
#[derive(Clone, Copy, Debug, PartialEq, Eq)]
pub struct Answer {
    pub refusal: u8,
    pub count: u32,
}

impl Answer {
    pub fn done(count: usize) -> Answer {
        Answer {
            refusal: 0,
            count: count as u32,
        }
    }

    /// A refusal, which carries 0.
    pub fn refused(refusal: Refusal) -> Answer {
        Answer::refused_with(refusal, 0)
    }

    /// A refusal that carries a count.
    pub fn refused_with(refusal: Refusal, count: usize) -> Answer {
        Answer {
            refusal: refusal.number(),
            count: count as u32,
        }
    }
}
