//! Reading big-endian numbers and parts from a byte slice.

use crate::verdict::{refusal, Fault};

/// A position in a slice whose offsets are the bundle's own.
pub(crate) struct Cursor<'a> {
    bytes: &'a [u8],
    position: usize,
    /// None: an item past the end is cut short at its own first byte.
    overrun: Option<Fault>,
}

impl<'a> Cursor<'a> {
    pub fn new(bytes: &'a [u8]) -> Cursor<'a> {
        Cursor {
            bytes,
            position: 0,
            overrun: None,
        }
    }

    /// A part of the same bytes that gives `overrun` for each item past its end.
    /// None if the part itself passes the end.
    pub fn part(&self, length: usize, overrun: Fault) -> Option<Cursor<'a>> {
        let end = self.position.checked_add(length)?;
        Some(Cursor {
            bytes: self.bytes.get(..end)?,
            position: self.position,
            overrun: Some(overrun),
        })
    }

    pub fn position(&self) -> usize {
        self.position
    }

    pub fn at_end(&self) -> bool {
        self.position == self.bytes.len()
    }

    pub fn take(&mut self, length: usize) -> Result<&'a [u8], Fault> {
        let end = self.position.saturating_add(length);
        match self.bytes.get(self.position..end) {
            Some(part) => {
                self.position = end;
                Ok(part)
            }
            None => Err(self
                .overrun
                .unwrap_or_else(|| Fault::new(refusal::CUT_SHORT, self.position))),
        }
    }

    pub fn u1(&mut self) -> Result<u8, Fault> {
        self.take(1).map(|part| number(part) as u8)
    }

    pub fn u2(&mut self) -> Result<u32, Fault> {
        self.take(2).map(number)
    }

    pub fn u4(&mut self) -> Result<u32, Fault> {
        self.take(4).map(number)
    }

    /// A u2 above `largest` is refused at its own place.
    pub fn u2_at_most(&mut self, largest: u32) -> Result<u32, Fault> {
        let place = self.position;
        let value = self.u2()?;
        if value > largest {
            return Err(Fault::new(refusal::LARGEST_VALUE, place));
        }
        Ok(value)
    }
}

/// Big-endian value of up to four bytes.
pub(crate) fn number(bytes: &[u8]) -> u32 {
    bytes
        .iter()
        .fold(0, |value, &byte| (value << 8) | u32::from(byte))
}
