//! Locals and operands with their tags.

use super::{Machine, Stop, Value, SLOT_MASK};
use crate::types::{RefType, ValueType};

impl Machine<'_, '_, '_> {
    #[inline]
    pub(super) fn branch_if(&mut self, taken: bool, target: u16) {
        if taken {
            self.frame.position = usize::from(target);
        }
    }

    #[inline]
    pub(super) fn local(&self, index: u8) -> Value {
        self.slots[(self.frame.locals + usize::from(index)) & SLOT_MASK]
    }

    #[inline]
    pub(super) fn local_int(&self, index: u8) -> Result<i32, Stop> {
        match self.local(index) {
            Value::Int(value) => Ok(value),
            _ => Err(Stop::Stuck),
        }
    }

    #[inline]
    pub(super) fn set_local(&mut self, index: u8, value: Value) {
        self.slots[(self.frame.locals + usize::from(index)) & SLOT_MASK] = value;
    }

    #[inline]
    pub(super) fn push(&mut self, value: Value) {
        self.slots[self.frame.top & SLOT_MASK] = value;
        self.frame.top += 1;
    }

    #[inline]
    pub(super) fn pop(&mut self) -> Value {
        self.frame.top = self.frame.top.wrapping_sub(1);
        self.slots[self.frame.top & SLOT_MASK]
    }

    #[inline]
    pub(super) fn pop_int(&mut self) -> Result<i32, Stop> {
        match self.pop() {
            Value::Int(value) => Ok(value),
            _ => Err(Stop::Stuck),
        }
    }

    /// Also an object that is not ready.
    #[inline]
    pub(super) fn pop_reference(&mut self) -> Result<u32, Stop> {
        match self.pop() {
            Value::Reference(value) => Ok(value),
            _ => Err(Stop::Stuck),
        }
    }

    /// Null, or something ready.
    #[inline]
    pub(super) fn pop_ready(&mut self) -> Result<u32, Stop> {
        match self.pop() {
            Value::Reference(value) if value == 0 || self.heap.is_ready(value) => Ok(value),
            _ => Err(Stop::Stuck),
        }
    }

    /// Null, or something ready that fits.
    #[inline]
    pub(super) fn pop_fitting(&mut self, wanted: RefType) -> Result<u32, Stop> {
        let value = self.pop_ready()?;
        if value != 0 && !self.heap.kind(value).fits(wanted, self.hierarchy) {
            return Err(Stop::Stuck);
        }
        Ok(value)
    }

    /// The value has the kind, is ready and fits.
    #[inline]
    pub(super) fn fits(&self, value: Value, wanted: ValueType) -> bool {
        match (value, wanted) {
            (Value::Int(_), ValueType::Int) => true,
            (Value::Reference(0), ValueType::Reference(_)) => true,
            (Value::Reference(object), ValueType::Reference(wanted)) => {
                self.heap.is_ready(object) && self.heap.kind(object).fits(wanted, self.hierarchy)
            }
            _ => false,
        }
    }
}
