//! Calls, returns and throws.

use super::{cell_of, new_frame, End, Frame, Machine, Step, Stop, Value, FRAME_SLOTS, SLOT_MASK};
use crate::limits;
use crate::prepared::PreparedMethod;
use crate::resolve::MethodUse;
use crate::types::{RefType, ValueType, NULL_POINTER, THROWABLE};

impl<'m, 'p> Machine<'m, 'p, '_> {
    pub(super) fn invoke_static(&mut self, used: MethodUse) -> Step {
        let number = used.method.ok_or(Stop::Stuck)?;
        let method = self.prepared.method(number).ok_or(Stop::Stuck)?;
        let first = self.check_arguments(&method.signature.parameters)?;
        self.enter(method, first, 0)
    }

    pub(super) fn invoke_virtual(&mut self, used: MethodUse) -> Step {
        let number = used.method.ok_or(Stop::Stuck)?;
        let named = self.prepared.method(number).ok_or(Stop::Stuck)?;
        let first = self.check_arguments(&named.signature.parameters)?;
        let receiver = self.receiver(first)?;
        if receiver == 0 {
            return Err(Stop::Fault(NULL_POINTER));
        }
        let class = self.heap.kind(receiver);
        let wanted = RefType::class(used.named);
        if !self.heap.is_ready(receiver) || !class.fits(wanted, self.hierarchy) {
            return Err(Stop::Stuck);
        }
        let class = class.as_class().ok_or(Stop::Stuck)?;
        let selected = self.prepared.select(number, class).ok_or(Stop::Stuck)?;
        let method = self.prepared.method(selected).ok_or(Stop::Stuck)?;
        self.enter(method, first.wrapping_sub(1), 0)
    }

    pub(super) fn invoke_constructor(&mut self, used: MethodUse) -> Step {
        let method = used.method.and_then(|number| self.prepared.method(number));
        let first = match method {
            Some(method) => self.check_arguments(&method.signature.parameters)?,
            None => self.frame.top,
        };
        let receiver = self.receiver(first)?;
        let wanted = RefType::class(used.named);
        if receiver == 0
            || self.heap.is_ready(receiver)
            || !self.heap.kind(receiver).fits(wanted, self.hierarchy)
        {
            return Err(Stop::Stuck);
        }
        match method {
            Some(method) => self.enter(method, first.wrapping_sub(1), receiver),
            None => {
                self.heap.set_ready(receiver);
                self.frame.top = self.frame.top.wrapping_sub(1);
                Ok(())
            }
        }
    }

    /// The slot of the first argument, if all of them fit.
    pub(super) fn check_arguments(&self, parameters: &[ValueType]) -> Result<usize, Stop> {
        let first = self.frame.top.wrapping_sub(parameters.len());
        let arguments = (first..self.frame.top).map(|slot| self.slots[slot & SLOT_MASK]);
        for (argument, &parameter) in arguments.zip(parameters) {
            if !self.fits(argument, parameter) {
                return Err(Stop::Stuck);
            }
        }
        Ok(first)
    }

    pub(super) fn receiver(&self, first_argument: usize) -> Result<u32, Stop> {
        match self.slots[first_argument.wrapping_sub(1) & SLOT_MASK] {
            Value::Reference(receiver) => Ok(receiver),
            _ => Err(Stop::Stuck),
        }
    }

    /// The operands from slot `first` up become the first locals of a new frame.
    pub(super) fn enter(
        &mut self,
        method: &'m PreparedMethod<'p>,
        first: usize,
        constructed: u32,
    ) -> Step {
        let depth = self.callers.len() + 1;
        if depth >= limits::CALL_DEPTH {
            return Err(Stop::DepthFull);
        }
        let given = self.frame.top.wrapping_sub(first);
        let locals = depth * FRAME_SLOTS;
        for index in 0..given {
            self.slots[(locals + index) & SLOT_MASK] = self.slots[(first + index) & SLOT_MASK];
        }
        for index in given..method.max_locals {
            self.slots[(locals + index) & SLOT_MASK] = Value::Empty;
        }
        self.frame.top = first;
        self.callers.push(self.frame);
        self.frame = new_frame(method, locals, constructed);
        Ok(())
    }

    pub(super) fn return_int(&mut self) -> Step {
        let value = self.pop_int()?;
        match self.frame.method.signature.returns {
            Some(ValueType::Int) => self.leave(Some(Value::Int(value))),
            _ => Err(Stop::Stuck),
        }
    }

    pub(super) fn return_reference(&mut self) -> Step {
        match self.frame.method.signature.returns {
            Some(ValueType::Reference(wanted)) => {
                let value = self.pop_fitting(wanted)?;
                self.leave(Some(Value::Reference(value)))
            }
            _ => Err(Stop::Stuck),
        }
    }

    pub(super) fn return_nothing(&mut self) -> Step {
        match self.frame.method.signature.returns {
            None => self.leave(None),
            Some(_) => Err(Stop::Stuck),
        }
    }

    pub(super) fn leave(&mut self, value: Option<Value>) -> Step {
        let constructed = self.frame.constructed;
        if constructed != 0 && !self.heap.is_ready(constructed) {
            return Err(Stop::Stuck);
        }
        match self.callers.pop() {
            Some(caller) => self.frame = caller,
            None => return Err(Stop::Returned(value.map_or(0, cell_of))),
        }
        if let Some(value) = value {
            self.push(value);
        }
        Ok(())
    }

    pub(super) fn throw(&mut self) -> Step {
        let thrown = self.pop_fitting(RefType::class(THROWABLE))?;
        Err(if thrown == 0 {
            Stop::Fault(NULL_POINTER)
        } else {
            Stop::Thrown(thrown)
        })
    }

    /// Finds the catcher before a fault's object is made: no room for it is stuck first.
    pub(super) fn raise(&mut self, class: u8, thrown: Option<u32>) -> Option<(End, u32)> {
        let catcher = self.find_catcher(class);
        if let Some((frame, _)) = catcher {
            if frame.method.max_stack == 0 {
                return Some((End::Stuck, 0));
            }
        }
        let made = thrown.or_else(|| self.heap.allocate(RefType::class(class), 0, true));
        let object = match made {
            Some(object) => object,
            None => return Some((End::HeapFull, 0)),
        };
        let (frame, target) = match catcher {
            Some(catcher) => catcher,
            None => return Some((End::Uncaught, u32::from(class))),
        };
        self.callers.truncate(frame.locals / FRAME_SLOTS);
        self.frame = frame;
        self.frame.top = frame.stack;
        self.frame.position = target;
        self.push(Value::Reference(object));
        None
    }

    /// The innermost frame whose table catches the class, and where.
    pub(super) fn find_catcher(&self, class: u8) -> Option<(Frame<'m, 'p>, usize)> {
        let outward = std::iter::once(&self.frame).chain(self.callers.iter().rev());
        let mut catchers = outward.filter_map(|frame| {
            // Each frame's position has moved on from the throw or call.
            let at = frame.position.wrapping_sub(1);
            let mut handlers = frame.method.handlers.iter();
            let handler = handlers.find(|handler| {
                handler.covers(at) && self.hierarchy.is_below(class, handler.catches)
            })?;
            Some((*frame, usize::from(handler.target)))
        });
        catchers.next()
    }
}
