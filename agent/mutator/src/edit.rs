//! Changing bytes, in place or with the lengths that count them.

use std::ops::Range;

use crate::layout::number_at;

/// Writes the low bytes of a value, if the place exists.
pub fn write_number(bytes: &mut [u8], at: usize, width: usize, value: usize) {
    let end = at.saturating_add(width);
    let place = match bytes.get_mut(at..end) {
        Some(place) => place,
        None => return,
    };
    let mut rest = value;
    for byte in place.iter_mut().rev() {
        *byte = rest as u8;
        rest >>= 8;
    }
}

pub fn add_to_number(bytes: &mut [u8], at: usize, width: usize, change: isize) {
    let value = number_at(bytes, at, width) as isize;
    write_number(bytes, at, width, value.wrapping_add(change) as usize);
}

/// Replaces a range; each of the u4 lengths, which stand before it, follows the change.
pub fn replace(bytes: &mut Vec<u8>, range: Range<usize>, by: &[u8], lengths_at: &[usize]) {
    if range.start > range.end || range.end > bytes.len() {
        return;
    }
    let change = by.len() as isize - range.len() as isize;
    for &at in lengths_at {
        add_to_number(bytes, at, 4, change);
    }
    bytes.splice(range, by.iter().copied());
}

/// A copy of a range; empty if it is not all there.
pub fn copy_of(bytes: &[u8], range: &Range<usize>) -> Vec<u8> {
    bytes.get(range.clone()).unwrap_or(&[]).to_vec()
}
