//! Resolution lists to try.

use crate::random::Random;

pub use model::LEGAL_LISTS as LEGAL;

/// A list that is lent, or none.
pub type List<'a> = Option<&'a [u8]>;

/// Some lists that 22 refuses.
pub const ILLEGAL: [&[u8]; 12] = [
    &[],
    &[3],
    &[255],
    &[0, 0],
    &[1, 1],
    &[2, 2],
    &[0, 3],
    &[0, 1, 0],
    &[0, 1, 3],
    &[0, 1, 2, 0],
    &[0, 1, 2, 3],
    &[0, 0, 0, 0],
];

/// Mostly a legal list.
pub fn any_list(random: &mut Random) -> Vec<u8> {
    if random.chance(8) {
        illegal_list(random)
    } else {
        random.pick(&LEGAL).to_vec()
    }
}

/// An empty list, or a legal one with a rule twice, another byte or more bytes.
pub fn illegal_list(random: &mut Random) -> Vec<u8> {
    let mut list = random.pick(&LEGAL).to_vec();
    let count = list.len();
    let place = random.below(count);
    let (rule, byte) = (list[place], random.between(3, 255));
    match random.below(6) {
        0 => list.clear(),
        1 => list.insert(random.below(count + 1), rule),
        2 => list[place] = byte,
        3 => list.push(byte),
        4 => {
            let length = random.pick(&[4, 5, 12, 255, 256 + count, 65_536 + count]);
            list.resize(length, random.pick(&[rule, byte, 0]));
        }
        _ => list = random.pick(&ILLEGAL).to_vec(),
    }
    list
}

#[cfg(test)]
mod tests {
    use super::*;
    use model::Resolution;

    #[test]
    fn legal_lists_pass_and_differ() {
        for (place, list) in LEGAL.iter().enumerate() {
            assert!(Resolution::read(list).is_ok());
            assert!(!LEGAL[..place].contains(list));
        }
    }

    #[test]
    fn illegal_lists_are_refused() {
        assert!(ILLEGAL.iter().all(|list| Resolution::read(list).is_err()));
        let mut random = Random::new(141);
        let (mut empty, mut legal_start, mut cut_to_byte) = (0, 0, 0);
        for _ in 0..3_000 {
            let list = illegal_list(&mut random);
            assert!(Resolution::read(&list).is_err(), "{list:?}");
            let starts_legal = |count: usize| {
                let start = list.get(..count);
                start.is_some_and(|start| Resolution::read(start).is_ok())
            };
            empty += usize::from(list.is_empty());
            legal_start += usize::from(list.len() > 3 && starts_legal(3));
            cut_to_byte += usize::from(list.len() > 255 && starts_legal(list.len() % 256));
        }
        let seen = [empty, legal_start, cut_to_byte];
        assert!(seen.iter().all(|&times| times >= 100), "{seen:?}");
    }
}
