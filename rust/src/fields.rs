//! Fields one after another in bytes, low byte first: what day sheets and journals are made of.

/// The bytes that are not read yet.
#[derive(Clone, Copy, Debug)]
pub struct Fields<'a>(pub &'a [u8]);

impl Fields<'_> {
    fn take<const N: usize>(&mut self) -> Option<[u8; N]> {
        let (field, rest) = self.0.split_first_chunk::<N>()?;
        self.0 = rest;
        Some(*field)
    }

    pub fn byte(&mut self) -> Option<u8> {
        self.take().map(|[byte]| byte)
    }

    pub fn two(&mut self) -> Option<u16> {
        self.take().map(u16::from_le_bytes)
    }

    pub fn four(&mut self) -> Option<u32> {
        self.take().map(u32::from_le_bytes)
    }
}
