//! Texts of bounded length, kept in place.

/// At most `N` bytes. Unused bytes are 0, so equal texts are equal bytes.
#[derive(Clone, Copy, PartialEq, Eq)]
pub struct Text<const N: usize> {
    length: u8,
    bytes: [u8; N],
}

impl<const N: usize> Text<N> {
    /// The text with no byte.
    pub const EMPTY: Self = Text { length: 0, bytes: [0; N] };

    /// The text of these bytes, of which there are at most `N`.
    pub fn of(source: &[u8]) -> Self {
        let mut text = Self::EMPTY;
        text.append(source);
        text
    }

    /// Puts bytes behind the text, for which there is room.
    pub fn append(&mut self, more: &[u8]) {
        let start = usize::from(self.length);
        self.bytes[start..start + more.len()].copy_from_slice(more);
        self.length += more.len() as u8;
    }

    /// The text's first `length` bytes, to be written.
    pub fn room(&mut self, length: usize) -> &mut [u8] {
        self.length = length as u8;
        &mut self.bytes[..length]
    }

    /// The bytes.
    #[inline]
    pub fn as_bytes(&self) -> &[u8] {
        &self.bytes[..usize::from(self.length)]
    }
}

impl Text<16> {
    /// A number that orders names as their bytes do: no byte of a name is 0.
    pub fn rank(&self) -> u128 {
        u128::from_be_bytes(self.bytes)
    }
}
