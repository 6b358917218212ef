//! The plain machine.

mod arithmetic;
mod calls;
mod objects;
mod values;

use arithmetic::{compute, holds};

use crate::heap::Heap;
use crate::hierarchy::Hierarchy;
use crate::instruction::{Instruction, Operation};
use crate::limits;
use crate::prepared::{Prepared, PreparedMethod};
use crate::types::THROWABLE;

const FRAME_SLOTS: usize = 64;
const SLOTS: usize = FRAME_SLOTS * limits::CALL_DEPTH;
/// Every slot index is masked by this, so that none can be out of range.
const SLOT_MASK: usize = SLOTS - 1;

/// How a run ends; the numbers are the order of the paper's list.
#[derive(Clone, Copy, Debug, PartialEq, Eq)]
pub enum End {
    Returned = 1,
    Uncaught = 2,
    OutOfSteps = 3,
    HeapFull = 4,
    DepthFull = 5,
    Stuck = 6,
}

#[derive(Clone, Copy, Debug)]
pub(crate) struct Ended {
    pub end: End,
    pub value: u32,
    pub count: u32,
}

/// A local or operand with its tag.
#[derive(Clone, Copy, Debug)]
enum Value {
    Empty,
    Int(i32),
    Reference(u32),
}

/// Why an instruction does not simply go on.
enum Stop {
    Stuck,
    HeapFull,
    DepthFull,
    /// A fault of this class, whose object is not made yet.
    Fault(u8),
    Thrown(u32),
    /// From the entry.
    Returned(u32),
}

type Step = Result<(), Stop>;

#[derive(Clone, Copy)]
struct Frame<'m, 'p> {
    method: &'m PreparedMethod<'p>,
    /// The method's own, kept near because every step reads it.
    code: &'p [Instruction],
    /// The next instruction.
    position: usize,
    /// First slot of the locals, of the stack, and the first free one above it.
    locals: usize,
    stack: usize,
    top: usize,
    /// The receiver of a constructor, else 0.
    constructed: u32,
}

pub(crate) struct Machine<'m, 'p, 'h> {
    prepared: &'m Prepared<'p>,
    hierarchy: &'m Hierarchy<'p>,
    pub heap: Heap<'h>,
    slots: Box<[Value; SLOTS]>,
    callers: Vec<Frame<'m, 'p>>,
    frame: Frame<'m, 'p>,
}

impl<'m, 'p, 'h> Machine<'m, 'p, 'h> {
    /// Ready to run `entry`, a static method of int parameters only.
    pub fn new(
        prepared: &'m Prepared<'p>,
        hierarchy: &'m Hierarchy<'p>,
        heap: Heap<'h>,
        entry: &'m PreparedMethod<'p>,
        arguments: &[u32],
    ) -> Machine<'m, 'p, 'h> {
        let mut slots = Box::new([Value::Empty; SLOTS]);
        for (slot, &argument) in slots.iter_mut().zip(arguments) {
            *slot = Value::Int(argument as i32);
        }
        Machine {
            prepared,
            hierarchy,
            heap,
            slots,
            callers: Vec::with_capacity(limits::CALL_DEPTH),
            frame: new_frame(entry, 0, 0),
        }
    }

    pub fn run(&mut self, budget: u32) -> Ended {
        let mut count = 0;
        let ended = |end, value, count| Ended { end, value, count };
        loop {
            if count == budget {
                return ended(End::OutOfSteps, 0, count);
            }
            let stopped = match self.step() {
                Ok(()) => None,
                Err(stop) => self.settle(stop),
            };
            match stopped {
                None => count += 1,
                Some((End::Returned, value)) => return ended(End::Returned, value, count + 1),
                Some((End::Uncaught, value)) => return ended(End::Uncaught, value, count + 1),
                Some((end, _)) => return ended(end, 0, count),
            }
        }
    }

    #[inline(always)]
    fn step(&mut self) -> Step {
        let position = self.frame.position;
        let instruction = self.frame.code.get(position).ok_or(Stop::Stuck)?;
        self.frame.position = position + 1;
        self.check_height(instruction)?;
        self.execute(instruction.operation)
    }

    /// Operands are there, and what is left has room.
    #[inline(always)]
    fn check_height(&self, instruction: &Instruction) -> Step {
        let height = self.frame.top - self.frame.stack;
        let taken = usize::from(instruction.taken);
        let left = usize::from(instruction.left);
        if height < taken || height + left > self.frame.method.max_stack + taken {
            return Err(Stop::Stuck);
        }
        Ok(())
    }

    #[inline(always)]
    fn execute(&mut self, operation: Operation) -> Step {
        match operation {
            Operation::Nop => {}
            Operation::PushNull => self.push(Value::Reference(0)),
            Operation::PushInt(value) => self.push(Value::Int(value)),
            Operation::LoadInt(local) => {
                let value = self.local_int(local)?;
                self.push(Value::Int(value));
            }
            Operation::LoadReference(local) => match self.local(local) {
                Value::Reference(value) => self.push(Value::Reference(value)),
                _ => return Err(Stop::Stuck),
            },
            Operation::StoreInt(local) => {
                let value = self.pop_int()?;
                self.set_local(local, Value::Int(value));
            }
            Operation::StoreReference(local) => {
                let value = self.pop_reference()?;
                self.set_local(local, Value::Reference(value));
            }
            Operation::Increment(local, by) => {
                let value = self.local_int(local)?.wrapping_add(i32::from(by));
                self.set_local(local, Value::Int(value));
            }
            Operation::Binary(binary) => {
                let right = self.pop_int()?;
                let left = self.pop_int()?;
                self.push(Value::Int(compute(binary, left, right)?));
            }
            Operation::IfInt(condition, target) => {
                let value = self.pop_int()?;
                self.branch_if(holds(condition, value, 0), target);
            }
            Operation::IfInts(condition, target) => {
                let right = self.pop_int()?;
                let left = self.pop_int()?;
                self.branch_if(holds(condition, left, right), target);
            }
            Operation::Goto(target) => self.frame.position = usize::from(target),
            other => return self.execute_more(other),
        }
        Ok(())
    }

    fn execute_more(&mut self, operation: Operation) -> Step {
        match operation {
            Operation::GetField(field) => self.get_field(field),
            Operation::PutField(field) => self.put_field(field),
            Operation::LoadIntElement => self.load_int_element(),
            Operation::StoreIntElement => self.store_int_element(),
            Operation::LoadReferenceElement => self.load_reference_element(),
            Operation::StoreReferenceElement => self.store_reference_element(),
            Operation::InvokeVirtual(used) => self.invoke_virtual(used),
            Operation::InvokeConstructor(used) => self.invoke_constructor(used),
            Operation::InvokeStatic(used) => self.invoke_static(used),
            Operation::ReturnInt => self.return_int(),
            Operation::ReturnReference => self.return_reference(),
            Operation::ReturnNothing => self.return_nothing(),
            Operation::New(class) => self.make_object(class),
            Operation::NewArray(array) => self.make_array(array),
            Operation::ArrayLength => self.array_length(),
            Operation::Throw => self.throw(),
            Operation::CheckCast(wanted) => self.check_cast(wanted),
            Operation::InstanceOf(wanted) => self.instance_of(wanted),
            Operation::IfReferences { equal, target } => {
                let right = self.pop_ready()?;
                let left = self.pop_ready()?;
                self.branch_if((left == right) == equal, target);
                Ok(())
            }
            Operation::IfNull { null, target } => {
                let value = self.pop_ready()?;
                self.branch_if((value == 0) == null, target);
                Ok(())
            }
            Operation::Negate => {
                let value = self.pop_int()?.wrapping_neg();
                self.push(Value::Int(value));
                Ok(())
            }
            other => {
                self.rearrange(other);
                Ok(())
            }
        }
    }

    /// Values of any kind move; only the height matters.
    fn rearrange(&mut self, operation: Operation) {
        let first = self.pop();
        match operation {
            Operation::Dup => {
                self.push(first);
                self.push(first);
            }
            Operation::DupX1 => {
                let second = self.pop();
                self.push(first);
                self.push(second);
                self.push(first);
            }
            Operation::Swap => {
                let second = self.pop();
                self.push(first);
                self.push(second);
            }
            _ => {}
        }
    }

    /// The end that a stop is, or None if the run goes on in a handler.
    fn settle(&mut self, stop: Stop) -> Option<(End, u32)> {
        match stop {
            Stop::Stuck => Some((End::Stuck, 0)),
            Stop::HeapFull => Some((End::HeapFull, 0)),
            Stop::DepthFull => Some((End::DepthFull, 0)),
            Stop::Returned(value) => Some((End::Returned, value)),
            Stop::Fault(class) => self.raise(class, None),
            Stop::Thrown(object) => {
                let class = self.heap.kind(object).as_class().unwrap_or(THROWABLE);
                self.raise(class, Some(object))
            }
        }
    }
}

fn new_frame<'m, 'p>(
    method: &'m PreparedMethod<'p>,
    locals: usize,
    constructed: u32,
) -> Frame<'m, 'p> {
    let stack = locals + limits::MAX_LOCALS as usize;
    Frame {
        method,
        code: method.code,
        position: 0,
        locals,
        stack,
        top: stack,
        constructed,
    }
}

fn cell_of(value: Value) -> u32 {
    match value {
        Value::Empty => 0,
        Value::Int(value) => value as u32,
        Value::Reference(value) => value,
    }
}
