//! Which of two policies of the same role and permission goes before.

/// A list of rules: by how many bits each moves its part of a key. The first
/// rule's part is the highest; a rule that isn't there moves its part out.
pub struct Rules {
    moves: [u32; 3],
}

/// In place of a key: no policy. Its weight's part is above that of every key.
pub const NONE: u32 = u32::MAX;

/// Bits of a rule's part: an issue day, a rank, a weight.
const BITS: [u32; 3] = [16, 8, 8];

impl Rules {
    /// The rules, or refusal 22.
    pub fn read(list: &[u8]) -> Result<Rules, u8> {
        if list.is_empty() || 3 < list.len() {
            return Err(22);
        }
        let mut moves = [32; 3];
        let mut left = 32;
        for &rule in list {
            let rule = usize::from(rule);
            if 2 < rule || moves[rule] < 32 {
                return Err(22);
            }
            left -= BITS[rule];
            moves[rule] = left;
        }
        Ok(Rules { moves })
    }

    /// Of two policies the one with the smaller key goes before; table order
    /// decides between equal ones.
    #[inline(always)]
    pub fn key(&self, &[_, _, weight, _, _, rank, low, high]: &[u8; 8]) -> u32 {
        let day = !u16::from_le_bytes([low, high]);
        let part = |value: u32, rule: usize| (u64::from(value) << self.moves[rule]) as u32;
        part(day.into(), 0) | part((!rank).into(), 1) | part(weight.into(), 2)
    }
}

#[cfg(test)]
mod tests {
    use super::*;
    use model::{Policy, Resolution};

    /// All lists of up to four bytes of 0 to 3 and 255.
    fn short_lists() -> Vec<Vec<u8>> {
        let mut lists = vec![vec![]];
        let mut place = 0;
        while lists[place].len() < 4 {
            for byte in [0, 1, 2, 3, 255] {
                lists.push([&lists[place][..], &[byte]].concat());
            }
            place += 1;
        }
        lists
    }

    #[test]
    fn the_models_lists_have_rules() {
        let lists = short_lists();
        let legal = lists.iter().filter(|list| Rules::read(list).is_ok());
        assert_eq!(legal.count(), 15);
        for list in lists {
            let refusal = Resolution::read(&list).err();
            let refusal = refusal.map(|refusal| refusal.number());
            assert_eq!(Rules::read(&list).err(), refusal, "{list:?}");
        }
    }

    fn record(issue_day: u16, rank: u8, weight: u8) -> [u8; 8] {
        let [low, high] = issue_day.to_le_bytes();
        [0, 0, weight, 0, 255, rank, low, high]
    }

    fn policy(&[_, _, weight, _, _, rank, low, high]: &[u8; 8]) -> Policy {
        Policy {
            role: 0,
            permission: 0,
            weight,
            inheritable: false,
            context: None,
            rank,
            issue_day: u16::from_le_bytes([low, high]),
        }
    }

    /// Issue days, ranks and weights that are close, far or at an end.
    fn records() -> Vec<[u8; 8]> {
        let mut records = Vec::new();
        for issue_day in [0, 1, 255, 256, 511, 65_535] {
            for rank in [0, 1, 128, 255] {
                records.extend([1, 2, 5].map(|weight| record(issue_day, rank, weight)));
            }
        }
        records
    }

    #[test]
    fn keys_order_policies_as_the_model_does() {
        for list in short_lists() {
            let Ok(rules) = Rules::read(&list) else {
                continue;
            };
            let resolution = Resolution::read(&list).expect("the list is legal");
            for one in records() {
                assert!(rules.key(&one) < NONE);
                for other in records() {
                    let first = resolution.goes_before((0, &policy(&one)), (1, &policy(&other)));
                    assert_eq!(rules.key(&one) <= rules.key(&other), first, "{list:?}");
                }
            }
        }
    }
}
