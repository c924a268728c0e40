//! Bytes cut into fields, from the front.

/// What is left to be cut.
pub struct Fields<'a>(pub &'a [u8]);

impl<'a> Fields<'a> {
    /// The next so many bytes; none where there are fewer.
    pub fn bytes<const N: usize>(&mut self) -> Option<[u8; N]> {
        let (field, rest) = self.0.split_first_chunk::<N>()?;
        self.0 = rest;
        Some(*field)
    }

    /// A number of four bytes, the high byte first.
    pub fn number(&mut self) -> Option<u32> {
        self.bytes().map(u32::from_be_bytes)
    }

    /// A number of two bytes, the high byte first.
    pub fn short_number(&mut self) -> Option<u16> {
        self.bytes().map(u16::from_be_bytes)
    }
}
