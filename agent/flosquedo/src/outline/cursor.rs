//! Big-endian numbers from a slice.

/// A position in bytes; reading past the end gives None and stays where it is.
#[derive(Clone, Copy)]
pub struct Cursor<'a> {
    bytes: &'a [u8],
    at: usize,
}

impl<'a> Cursor<'a> {
    pub fn new(bytes: &'a [u8]) -> Cursor<'a> {
        Cursor { bytes, at: 0 }
    }

    pub fn position(&self) -> usize {
        self.at
    }

    pub fn at_end(&self) -> bool {
        self.at >= self.bytes.len()
    }

    pub fn take(&mut self, count: usize) -> Option<&'a [u8]> {
        let end = self.at.checked_add(count)?;
        let taken = self.bytes.get(self.at..end)?;
        self.at = end;
        Some(taken)
    }

    pub fn u1(&mut self) -> Option<u32> {
        self.number(1)
    }

    pub fn u2(&mut self) -> Option<u32> {
        self.number(2)
    }

    pub fn u4(&mut self) -> Option<u32> {
        self.number(4)
    }

    fn number(&mut self, width: usize) -> Option<u32> {
        let bytes = self.take(width)?;
        Some(
            bytes
                .iter()
                .fold(0, |value, &byte| value << 8 | u32::from(byte)),
        )
    }

    /// The same bytes up to so many from here on, with positions kept.
    pub fn part(&self, count: usize) -> Cursor<'a> {
        let end = self.at.saturating_add(count).min(self.bytes.len());
        let bytes = self.bytes.get(..end).unwrap_or(self.bytes);
        Cursor { bytes, at: self.at }
    }
}
