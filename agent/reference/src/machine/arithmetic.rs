//! Integers: 32 bits, wrapping.

use super::Stop;
use crate::instruction::{Binary, Condition};
use crate::types::ARITHMETIC;

#[inline]
pub(super) fn compute(binary: Binary, left: i32, right: i32) -> Result<i32, Stop> {
    let zero_divisor = right == 0 && matches!(binary, Binary::Divide | Binary::Remainder);
    if zero_divisor {
        return Err(Stop::Fault(ARITHMETIC));
    }
    // wrapping shifts use the low five bits of the distance, as Java's do.
    Ok(match binary {
        Binary::Add => left.wrapping_add(right),
        Binary::Subtract => left.wrapping_sub(right),
        Binary::Multiply => left.wrapping_mul(right),
        Binary::Divide => left.wrapping_div(right),
        Binary::Remainder => left.wrapping_rem(right),
        Binary::ShiftLeft => left.wrapping_shl(right as u32),
        Binary::ShiftRight => left.wrapping_shr(right as u32),
        Binary::ShiftRightUnsigned => (left as u32).wrapping_shr(right as u32) as i32,
        Binary::And => left & right,
        Binary::Or => left | right,
        Binary::Xor => left ^ right,
    })
}

#[inline]
pub(super) fn holds(condition: Condition, left: i32, right: i32) -> bool {
    match condition {
        Condition::Equal => left == right,
        Condition::NotEqual => left != right,
        Condition::Less => left < right,
        Condition::GreaterOrEqual => left >= right,
        Condition::Greater => left > right,
        Condition::LessOrEqual => left <= right,
    }
}
