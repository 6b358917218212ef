//! The lent heap: objects and arrays in 32-bit cells.

use crate::types::RefType;

/// Class or base, depth, field count or length, ready.
const HEADER: usize = 4;
const DEPTH: usize = 1;
const LENGTH: usize = 2;
const READY: usize = 3;

/// A reference is its header's index plus one; 0 is null.
pub(crate) struct Heap<'h> {
    cells: &'h mut [u32],
    used: usize,
}

impl<'h> Heap<'h> {
    pub fn new(cells: &'h mut [u32]) -> Heap<'h> {
        Heap { cells, used: 0 }
    }

    pub fn used(&self) -> u32 {
        self.used as u32
    }

    /// None, and nothing changed, if there is no room.
    pub fn allocate(&mut self, kind: RefType, length: usize, ready: bool) -> Option<u32> {
        let end = self.used.checked_add(HEADER)?.checked_add(length)?;
        let fresh = self.cells.get_mut(self.used..end)?;
        fresh.fill(0);
        let base = i32::from(kind.base) as u32;
        let header = [base, u32::from(kind.depth), length as u32, u32::from(ready)];
        for (cell, value) in fresh.iter_mut().zip(header) {
            *cell = value;
        }
        let reference = self.used as u32 + 1;
        self.used = end;
        Some(reference)
    }

    pub fn kind(&self, reference: u32) -> RefType {
        RefType {
            base: self.cell(reference, 0) as i8,
            depth: self.cell(reference, DEPTH) as u8,
        }
    }

    pub fn length(&self, reference: u32) -> u32 {
        self.cell(reference, LENGTH)
    }

    pub fn is_ready(&self, reference: u32) -> bool {
        self.cell(reference, READY) == 1
    }

    pub fn set_ready(&mut self, reference: u32) {
        self.set_cell(reference, READY, 1);
    }

    /// A field or element.
    pub fn item(&self, reference: u32, index: usize) -> u32 {
        self.cell(reference, HEADER + index)
    }

    pub fn set_item(&mut self, reference: u32, index: usize, value: u32) {
        self.set_cell(reference, HEADER + index, value);
    }

    /// References are the machine's own, so the cell is always there.
    fn cell(&self, reference: u32, offset: usize) -> u32 {
        let index = (reference as usize).wrapping_sub(1).wrapping_add(offset);
        self.cells.get(index).copied().unwrap_or(0)
    }

    fn set_cell(&mut self, reference: u32, offset: usize, value: u32) {
        let index = (reference as usize).wrapping_sub(1).wrapping_add(offset);
        if let Some(cell) = self.cells.get_mut(index) {
            *cell = value;
        }
    }
}
