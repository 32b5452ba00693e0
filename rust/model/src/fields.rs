//! Reading the fields of a record from front to back.

/// The fields of a record or trailer that are still to be read.
/// Numbers are little-endian and unsigned.
pub struct Fields<'a>(&'a [u8]);

impl<'a> Fields<'a> {
    pub fn of(record: &'a [u8]) -> Self {
        Fields(record)
    }

    pub fn bytes<const N: usize>(&mut self) -> [u8; N] {
        let (field, rest) = self
            .0
            .split_first_chunk()
            .expect("a record holds all its fields");
        self.0 = rest;
        *field
    }

    pub fn byte(&mut self) -> u8 {
        u8::from_le_bytes(self.bytes())
    }

    /// A number of 2 bytes.
    pub fn short(&mut self) -> u16 {
        u16::from_le_bytes(self.bytes())
    }

    /// A number of 4 bytes.
    pub fn long(&mut self) -> u32 {
        u32::from_le_bytes(self.bytes())
    }
}

#[cfg(test)]
mod tests {
    use super::*;

    #[test]
    fn fields_come_in_order_and_little_endian() {
        let mut fields = Fields::of(&[7, 0x9f, 0x05, 1, 2, 3, 4, 8, 9]);
        assert_eq!(fields.byte(), 7);
        assert_eq!(fields.short(), 1439);
        assert_eq!(fields.long(), 0x0403_0201);
        assert_eq!(fields.bytes(), [8, 9]);
    }
}
