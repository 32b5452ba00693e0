//! Operators, shared by the conditions of contexts and groups.

/// x stands to the value v as the operator says.
pub fn is_met(operator: u8, x: u32, v: u32) -> bool {
    match operator {
        0 => v < x,
        1 => x < v,
        2 => v <= x,
        3 => x <= v,
        4 => x == v,
        5 => x != v,
        6 => x & v == v,
        _ => false,
    }
}
