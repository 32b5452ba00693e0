//! The operators of conditions.

/// Operators 0 to 5, which compare two numbers.
#[derive(Clone, Copy, Debug, PartialEq, Eq)]
pub enum Comparison {
    Greater,
    Less,
    AtLeast,
    AtMost,
    Equal,
    Unequal,
}

/// Operator 6, "contains".
pub const CONTAINS: u8 = 6;

impl Comparison {
    pub fn from_number(operator: u8) -> Option<Comparison> {
        match operator {
            0 => Some(Comparison::Greater),
            1 => Some(Comparison::Less),
            2 => Some(Comparison::AtLeast),
            3 => Some(Comparison::AtMost),
            4 => Some(Comparison::Equal),
            5 => Some(Comparison::Unequal),
            _ => None,
        }
    }

    pub fn holds(self, left: u32, right: u32) -> bool {
        match self {
            Comparison::Greater => left > right,
            Comparison::Less => left < right,
            Comparison::AtLeast => left >= right,
            Comparison::AtMost => left <= right,
            Comparison::Equal => left == right,
            Comparison::Unequal => left != right,
        }
    }
}

#[cfg(test)]
mod tests {
    use super::*;

    /// For operators 0 to 5: whether each holds.
    fn all(left: u32, right: u32) -> [bool; 6] {
        std::array::from_fn(|operator| {
            let comparison = Comparison::from_number(operator as u8).unwrap();
            comparison.holds(left, right)
        })
    }

    #[test]
    fn operators_compare_by_their_numbers() {
        assert_eq!(all(5, 6), [false, true, false, true, false, true]);
        assert_eq!(all(6, 6), [false, false, true, true, true, false]);
        assert_eq!(all(7, 6), [true, false, true, false, false, true]);
    }

    #[test]
    fn no_other_operator_compares() {
        assert!((6..=255).all(|operator| Comparison::from_number(operator).is_none()));
    }
}
