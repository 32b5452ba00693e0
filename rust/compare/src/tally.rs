//! How often each answer was seen.

/// A count for each answer from 0 to `ANSWERS - 1`.
pub struct Tally<const ANSWERS: usize>([usize; ANSWERS]);

impl<const ANSWERS: usize> Tally<ANSWERS> {
    pub fn new() -> Tally<ANSWERS> {
        Tally([0; ANSWERS])
    }

    pub fn add(&mut self, answer: u8) {
        self.0[usize::from(answer)] += 1;
    }

    /// How often this answer was seen.
    pub fn seen(&self, answer: u8) -> usize {
        self.0[usize::from(answer)]
    }

    pub fn total(&self) -> usize {
        self.0.iter().sum()
    }

    /// Prints how often each of these numbers was seen, and asserts that each
    /// was, and no other.
    pub fn expect_exactly(&self, name: &str, numbers: &[u8]) {
        for number in numbers {
            println!("{name} {number}: {} times", self.seen(*number));
        }
        for (number, seen) in (0..).zip(&self.0) {
            match numbers.contains(&number) {
                true => assert!(*seen > 0, "{name} {number} was never seen"),
                false => assert!(*seen == 0, "{name} {number} was seen"),
            }
        }
    }
}

impl<const ANSWERS: usize> Default for Tally<ANSWERS> {
    fn default() -> Tally<ANSWERS> {
        Tally::new()
    }
}

#[cfg(test)]
mod tests {
    use super::*;

    #[test]
    fn each_answer_is_counted() {
        let mut tally = Tally::<3>::new();
        [0, 2, 2].into_iter().for_each(|answer| tally.add(answer));
        assert_eq!([0, 1, 2].map(|answer| tally.seen(answer)), [1, 0, 2]);
        assert_eq!(tally.total(), 3);
    }

    #[test]
    fn some_numbers_and_no_other_suffice() {
        let mut tally = Tally::<5>::new();
        [0, 1, 4, 1].into_iter().for_each(|kind| tally.add(kind));
        tally.expect_exactly("kind", &[0, 1, 4]);
    }

    #[test]
    #[should_panic(expected = "kind 4 was never seen")]
    fn an_expected_number_that_was_never_seen_fails() {
        let mut tally = Tally::<5>::new();
        tally.add(0);
        tally.expect_exactly("kind", &[0, 4]);
    }

    #[test]
    #[should_panic(expected = "kind 2 was seen")]
    fn a_number_beside_the_expected_ones_fails() {
        let mut tally = Tally::<5>::new();
        [0, 2].into_iter().for_each(|kind| tally.add(kind));
        tally.expect_exactly("kind", &[0]);
    }
}
