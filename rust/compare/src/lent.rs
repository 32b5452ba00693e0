//! Buffers to lend, full of noise and between guard bytes.

use model::Sheet;

use crate::random::Random;

/// So many bytes on either side of the buffer.
const GUARD: usize = 32;

#[derive(Clone)]
pub struct Lent {
    memory: Vec<u8>,
}

impl Lent {
    /// A buffer of this length and its guards, all of it noise.
    pub fn noisy(random: &mut Random, length: usize) -> Lent {
        let noise = std::iter::repeat_with(|| random.byte());
        Lent {
            memory: noise.take(GUARD + length + GUARD).collect(),
        }
    }

    /// The same with every bit turned: a byte written to both shows in one.
    pub fn inverted(&self) -> Lent {
        Lent {
            memory: self.memory.iter().map(|byte| !byte).collect(),
        }
    }

    pub fn length(&self) -> usize {
        self.memory.len() - 2 * GUARD
    }

    pub fn buffer(&mut self) -> &mut [u8] {
        let end = GUARD + self.length();
        &mut self.memory[GUARD..end]
    }

    /// The buffer as a sheet: it has 14 bytes.
    pub fn sheet(&mut self) -> &mut Sheet {
        self.buffer().try_into().expect("the buffer has 14 bytes")
    }

    /// The first place where two of equal length differ, counted from the
    /// buffer's start: below 0 and from its length on are guards.
    pub fn first_difference(&self, other: &Lent) -> Option<isize> {
        assert_eq!(self.length(), other.length());
        let mut pairs = self.memory.iter().zip(&other.memory);
        let place = pairs.position(|(one, other)| one != other)?;
        Some(place as isize - GUARD as isize)
    }
}

#[cfg(test)]
mod tests {
    use super::*;

    #[test]
    fn differences_show_in_the_buffer_and_in_both_guards() {
        let lent = Lent::noisy(&mut Random::new(1), 5);
        let changed = |place: usize| {
            let mut other = lent.clone();
            other.memory[place] ^= 1;
            lent.first_difference(&other)
        };
        assert_eq!(changed(0), Some(-32));
        assert_eq!(changed(32), Some(0));
        assert_eq!(changed(37), Some(5));
        assert_eq!(changed(68), Some(36));
        assert_eq!(lent.first_difference(&lent), None);
    }

    #[test]
    fn a_byte_written_to_a_buffer_and_its_inverse_shows_in_one() {
        let lent = Lent::noisy(&mut Random::new(2), 40);
        for written in [lent.memory[GUARD], !lent.memory[GUARD], 7] {
            let shows = |before: &Lent| {
                let mut after = before.clone();
                after.buffer()[0] = written;
                after.first_difference(before) == Some(0)
            };
            assert!(shows(&lent) || shows(&lent.inverted()));
        }
    }
}
