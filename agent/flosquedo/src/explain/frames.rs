//! StackMapTables, read only far enough to name a frame's place and fault.

use super::instruction::{byte, starts};
use super::Finding;
use crate::outline::{Code, Cursor};

/// A frame's first byte and the code offset where it stands.
#[derive(Clone, Copy, Debug, PartialEq, Eq)]
pub struct Frame {
    pub tag: u32,
    pub offset: u32,
}

/// The frames that can be followed, in order.
pub fn frames(table: &[u8]) -> Vec<Frame> {
    let mut cursor = Cursor::new(table);
    let count = cursor.u2().unwrap_or(0);
    let mut found: Vec<Frame> = Vec::new();
    for _ in 0..count {
        // The first delta counts from the start, each other from just after the frame before.
        let base = found.last().map_or(0, |last| last.offset + 1);
        match frame(&mut cursor) {
            Some((tag, delta)) => found.push(Frame {
                tag,
                offset: base + delta,
            }),
            None => break,
        }
    }
    found
}

/// Tag and delta; None for a form that does not exist or is cut short.
fn frame(cursor: &mut Cursor<'_>) -> Option<(u32, u32)> {
    let tag = cursor.u1()?;
    let delta = match tag {
        0..=127 => tag % 64,
        247..=255 => cursor.u2()?,
        _ => return None,
    };
    match tag {
        64..=127 | 247 => types(cursor, 1)?,
        252..=254 => types(cursor, tag - 251)?,
        255 => {
            let locals = cursor.u2()?;
            types(cursor, locals)?;
            let stack = cursor.u2()?;
            types(cursor, stack)?;
        }
        _ => {}
    }
    Some((tag, delta))
}

/// Only 7 and 8 have a number after them.
fn types(cursor: &mut Cursor<'_>, count: u32) -> Option<()> {
    for _ in 0..count {
        if matches!(cursor.u1()?, 7 | 8) {
            cursor.u2()?;
        }
    }
    Some(())
}

/// What is wrong with the frame of a number.
pub fn refused_frame(code: &Code<'_>, number: usize) -> Option<Finding> {
    let table = code.frame_table?;
    let text = match Cursor::new(table).u2() {
        None => "the frame table is too short to hold its count".to_string(),
        Some(count) if count > 256 => format!("{} frames where at most 256 are allowed", count),
        Some(count) if number >= count as usize => {
            format!("bytes are left over after the {} frame(s)", count)
        }
        Some(_) => frame_fault(code, table, number),
    };
    Some(Finding::wrong(text))
}

fn frame_fault(code: &Code<'_>, table: &[u8], number: usize) -> String {
    let offset = match frames(table).get(number) {
        Some(frame) => frame.offset,
        None => {
            return format!(
                "frame {} is cut short, or of a form that does not exist",
                number
            )
        }
    };
    let place = format!("frame {}, at code offset {},", number, offset);
    match starts(code.bytes).contains(&(offset as usize)) {
        true => format!(
            "{} has a type, or a number of locals or operands, that cannot be",
            place
        ),
        false => format!("{} stands where no instruction begins", place),
    }
}

/// Which frame is missing for the instruction at an offset.
pub fn missing_frame(code: &Code<'_>, place: usize) -> Option<Finding> {
    let offsets: Vec<u32> = frames(code.frame_table.unwrap_or(&[]))
        .iter()
        .map(|frame| frame.offset)
        .collect();
    let lacks = |offset: i64| !offsets.iter().any(|&there| i64::from(there) == offset);
    let target = super::instruction::branch_target(code.bytes, place);
    if let Some(target) = target.filter(|&target| lacks(target)) {
        return Some(Finding::wrong(format!(
            "no frame stands at {}, where this branch leads",
            target
        )));
    }
    let covering = |start: u32, end: u32| start as usize <= place && place < end as usize;
    let mut entries = code
        .table
        .iter()
        .filter(|entry| covering(entry.start, entry.end));
    if let Some(entry) = entries.find(|entry| lacks(i64::from(entry.handler))) {
        return Some(Finding::wrong(format!(
            "no frame stands at {}, where the handler begins",
            entry.handler
        )));
    }
    let before = starts(code.bytes)
        .into_iter()
        .rev()
        .find(|&start| start < place)?;
    let ends_flow = matches!(byte(code.bytes, before)?, 0xa7 | 0xac | 0xb0 | 0xb1 | 0xbf);
    Some(Finding::wrong(
        "no frame stands here, after a jump, return or throw",
    ))
    .filter(|_| ends_flow)
}

#[cfg(test)]
mod tests {
    use super::*;

    #[test]
    fn deltas_add_up_with_one_between() {
        let table = [
            0,
            4,
            5,
            64 + 2,
            1,
            251,
            0,
            9,
            255,
            0,
            0,
            0,
            1,
            7,
            0,
            3,
            0,
            0,
        ];
        let offsets: Vec<u32> = frames(&table).iter().map(|frame| frame.offset).collect();
        assert_eq!(offsets, [5, 8, 18, 19]);
    }

    #[test]
    fn a_cut_or_unknown_frame_ends_the_list() {
        assert_eq!(frames(&[0, 2, 1, 252, 0]).len(), 1);
        assert_eq!(frames(&[0, 2, 1, 130]).len(), 1);
        assert!(frames(&[0]).is_empty());
    }
}
