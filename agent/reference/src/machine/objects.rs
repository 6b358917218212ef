//! Objects, arrays and casts.

use super::{cell_of, Machine, Step, Stop, Value};
use crate::resolve::FieldUse;
use crate::types::{
    RefType, ValueType, ARRAY_INDEX, ARRAY_STORE, CLASS_CAST, NEGATIVE_SIZE, NULL_POINTER,
};

impl Machine<'_, '_, '_> {
    pub(super) fn get_field(&mut self, field: FieldUse) -> Step {
        let object = self.pop_fitting(RefType::class(field.named))?;
        if object == 0 {
            return Err(Stop::Fault(NULL_POINTER));
        }
        let cell = self.heap.item(object, usize::from(field.slot));
        self.push(match field.kind {
            ValueType::Int => Value::Int(cell as i32),
            ValueType::Reference(_) => Value::Reference(cell),
        });
        Ok(())
    }

    pub(super) fn put_field(&mut self, field: FieldUse) -> Step {
        let value = self.pop();
        if !self.fits(value, field.kind) {
            return Err(Stop::Stuck);
        }
        let object = self.pop_fitting(RefType::class(field.named))?;
        if object == 0 {
            return Err(Stop::Fault(NULL_POINTER));
        }
        let slot = usize::from(field.slot);
        self.heap.set_item(object, slot, cell_of(value));
        Ok(())
    }

    pub(super) fn load_int_element(&mut self) -> Step {
        let (array, index) = self.pop_int_element()?;
        let value = self.heap.item(array, index) as i32;
        self.push(Value::Int(value));
        Ok(())
    }

    pub(super) fn store_int_element(&mut self) -> Step {
        let value = self.pop_int()?;
        let (array, index) = self.pop_int_element()?;
        self.heap.set_item(array, index, value as u32);
        Ok(())
    }

    /// Index and array of int, down to an element that exists.
    pub(super) fn pop_int_element(&mut self) -> Result<(u32, usize), Stop> {
        let index = self.pop_int()?;
        let array = self.pop_reference()?;
        if array != 0 && self.heap.kind(array) != RefType::INT_ARRAY {
            return Err(Stop::Stuck);
        }
        self.existing_element(array, index)
    }

    pub(super) fn load_reference_element(&mut self) -> Step {
        let (array, index) = self.pop_reference_element()?;
        let value = self.heap.item(array, index);
        self.push(Value::Reference(value));
        Ok(())
    }

    pub(super) fn store_reference_element(&mut self) -> Step {
        let value = self.pop_ready()?;
        let (array, index) = self.pop_reference_element()?;
        let wanted = self.heap.kind(array).element();
        if value != 0 && !self.heap.kind(value).fits(wanted, self.hierarchy) {
            return Err(Stop::Fault(ARRAY_STORE));
        }
        self.heap.set_item(array, index, value);
        Ok(())
    }

    /// Index and array of references, down to an element that exists.
    pub(super) fn pop_reference_element(&mut self) -> Result<(u32, usize), Stop> {
        let index = self.pop_int()?;
        let array = self.pop_reference()?;
        if array != 0 && !self.heap.kind(array).is_array_of_references() {
            return Err(Stop::Stuck);
        }
        self.existing_element(array, index)
    }

    pub(super) fn existing_element(&self, array: u32, index: i32) -> Result<(u32, usize), Stop> {
        if array == 0 {
            return Err(Stop::Fault(NULL_POINTER));
        }
        // A negative index is larger than every length once unsigned.
        if index as u32 >= self.heap.length(array) {
            return Err(Stop::Fault(ARRAY_INDEX));
        }
        Ok((array, index as usize))
    }

    pub(super) fn array_length(&mut self) -> Step {
        let array = self.pop_reference()?;
        if array == 0 {
            return Err(Stop::Fault(NULL_POINTER));
        }
        if !self.heap.kind(array).is_array() {
            return Err(Stop::Stuck);
        }
        let length = self.heap.length(array) as i32;
        self.push(Value::Int(length));
        Ok(())
    }

    pub(super) fn make_object(&mut self, class: u8) -> Step {
        let fields = self.prepared.field_count(class);
        let made = self.heap.allocate(RefType::class(class), fields, false);
        self.push(Value::Reference(made.ok_or(Stop::HeapFull)?));
        Ok(())
    }

    pub(super) fn make_array(&mut self, array: RefType) -> Step {
        let length = self.pop_int()?;
        let length = usize::try_from(length).map_err(|_| Stop::Fault(NEGATIVE_SIZE))?;
        let made = self.heap.allocate(array, length, true);
        self.push(Value::Reference(made.ok_or(Stop::HeapFull)?));
        Ok(())
    }

    pub(super) fn check_cast(&mut self, wanted: RefType) -> Step {
        let object = self.pop_ready()?;
        if object != 0 && !self.heap.kind(object).fits(wanted, self.hierarchy) {
            return Err(Stop::Fault(CLASS_CAST));
        }
        self.push(Value::Reference(object));
        Ok(())
    }

    pub(super) fn instance_of(&mut self, wanted: RefType) -> Step {
        let object = self.pop_ready()?;
        let is_instance = object != 0 && self.heap.kind(object).fits(wanted, self.hierarchy);
        self.push(Value::Int(i32::from(is_instance)));
        Ok(())
    }
}
