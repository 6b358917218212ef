//! Phase D, second part: the walk over a method's code.

use crate::frames::{entry_state, read_frames, State};
use crate::instruction::{Instruction, Operation};
use crate::link::{Method, Program};
use crate::resolve::{FieldUse, MethodUse};
use crate::shape::{Body, Shaped};
use crate::types::{RefType, Type, ValueType, OBJECT, THROWABLE};
use crate::verdict::{refusal, Fault, Verdict};

/// Frames and walk of every method in order.
pub(crate) fn type_check(program: &Program<'_>, shaped: &Shaped<'_>) -> Result<(), Verdict> {
    for (method, body) in program.methods.iter().zip(&shaped.bodies) {
        let references = shaped.references.get(method.class);
        let references = references.map_or(&[][..], Vec::as_slice);
        let checked = read_frames(method, body, references).and_then(|frames| {
            let walk = Walk {
                program,
                method,
                body,
                frames,
            };
            walk.check()
        });
        checked.map_err(|fault| fault.in_method(method.class as u32, method.index as u32))?;
    }
    Ok(())
}

struct Walk<'s, 'a> {
    program: &'s Program<'a>,
    method: &'s Method<'a>,
    body: &'s Body<'a>,
    /// By position in the list of instructions.
    frames: Vec<Option<State>>,
}

impl Walk<'_, '_> {
    fn check(&self) -> Result<(), Fault> {
        let mut state = Some(entry_state(self.method, self.body));
        for (position, instruction) in self.body.instructions.iter().enumerate() {
            let refuse = |number| Fault::new(number, usize::from(instruction.offset));
            let before = self.arrive(state, position).map_err(refuse)?;
            state = self.step(position, instruction, before).map_err(refuse)?;
        }
        match state {
            Some(_) => Err(Fault::new(
                refusal::NO_FRAME,
                self.body.starts.code_length(),
            )),
            None => Ok(()),
        }
    }

    /// Step 1: a frame that stands here replaces the state, which must fit it.
    fn arrive(&self, state: Option<State>, position: usize) -> Result<State, u32> {
        match (state, self.frame_at(position)) {
            (Some(state), Ok(frame)) => {
                state.fits(frame, &self.program.hierarchy)?;
                Ok(frame.clone())
            }
            (Some(state), Err(_)) => Ok(state),
            (None, frame) => frame.cloned(),
        }
    }

    fn frame_at(&self, position: usize) -> Result<&State, u32> {
        let frame = self.frames.get(position).and_then(Option::as_ref);
        frame.ok_or(refusal::NO_FRAME)
    }

    /// Steps 2 to 4; None where no state is left.
    fn step(
        &self,
        position: usize,
        instruction: &Instruction,
        before: State,
    ) -> Result<Option<State>, u32> {
        let covered = self
            .body
            .handlers
            .iter()
            .any(|handler| handler.covers(position));
        let locals_before = if covered {
            before.locals.clone()
        } else {
            Vec::new()
        };
        let flag_before = before.flag;
        let mut operands = Operands {
            walk: self,
            state: before,
        };
        let initialised = operands.execute(instruction)?;
        if covered {
            self.check_handlers(position, locals_before, flag_before, initialised)?;
        }
        let after = operands.state;
        if let Some(target) = instruction.operation.branch_target() {
            after.fits(self.frame_at(target)?, &self.program.hierarchy)?;
        }
        Ok(Some(after).filter(|_| !instruction.operation.ends_flow()))
    }

    /// Step 3: what a handler finds if this instruction throws.
    fn check_handlers(
        &self,
        position: usize,
        mut locals: Vec<Type>,
        flag: bool,
        initialised: Option<Type>,
    ) -> Result<(), u32> {
        if let Some(initialised) = initialised {
            // The constructor may have failed half-way.
            replace_all(&mut locals, initialised, Type::Top);
        }
        let mut caught = State {
            locals,
            stack: Vec::new(),
            flag: false,
        };
        let handlers = self.body.handlers.iter();
        for handler in handlers.filter(|handler| handler.covers(position)) {
            if flag {
                return Err(refusal::CONSTRUCTOR);
            }
            let frame = self.frame_at(usize::from(handler.target))?;
            caught.stack = vec![Type::class(handler.catches)];
            caught.fits(frame, &self.program.hierarchy)?;
        }
        Ok(())
    }
}

fn replace_all(types: &mut [Type], old: Type, new: Type) {
    for one in types.iter_mut().filter(|one| **one == old) {
        *one = new;
    }
}

/// Step 2: one instruction on locals and operands.
struct Operands<'w, 's, 'a> {
    walk: &'w Walk<'s, 'a>,
    state: State,
}

type Checked = Result<(), u32>;

impl Operands<'_, '_, '_> {
    /// Gives the uninitialised type that a constructor call has initialised.
    fn execute(&mut self, instruction: &Instruction) -> Result<Option<Type>, u32> {
        if self.state.stack.len() < usize::from(instruction.taken) {
            return Err(refusal::OPERAND_COUNT);
        }
        match instruction.operation {
            Operation::InvokeConstructor(used) => return self.construct(used).map(Some),
            Operation::New(_) => self.make_object(instruction.offset),
            Operation::InvokeVirtual(used) => self.call(used, Some(used.named)),
            Operation::InvokeStatic(used) => self.call(used, None),
            Operation::GetField(field) => self.get_field(field),
            Operation::PutField(field) => self.put_field(field),
            Operation::ReturnInt | Operation::ReturnReference | Operation::ReturnNothing => {
                self.leave(instruction.operation)
            }
            other => self.simple(other),
        }?;
        Ok(None)
    }

    fn simple(&mut self, operation: Operation) -> Checked {
        match operation {
            Operation::Nop | Operation::Goto(_) => Ok(()),
            Operation::PushNull => self.push(Type::Null),
            Operation::PushInt(_) => self.push(Type::Int),
            Operation::LoadInt(_)
            | Operation::LoadReference(_)
            | Operation::StoreInt(_)
            | Operation::StoreReference(_)
            | Operation::Increment(..) => self.use_local(operation),
            Operation::Pop | Operation::Dup | Operation::DupX1 | Operation::Swap => {
                self.rearrange(operation)
            }
            Operation::Negate => self.pop_ints(1).and_then(|_| self.push(Type::Int)),
            Operation::Binary(_) => self.pop_ints(2).and_then(|_| self.push(Type::Int)),
            Operation::IfInt(..) => self.pop_ints(1),
            Operation::IfInts(..) => self.pop_ints(2),
            Operation::IfNull { .. } => self.pop_class(OBJECT),
            Operation::IfReferences { .. } => {
                self.pop_class(OBJECT).and_then(|_| self.pop_class(OBJECT))
            }
            Operation::Throw => self.pop_class(THROWABLE),
            Operation::CheckCast(class) => {
                self.pop_class(OBJECT)?;
                self.push(Type::Reference(class))
            }
            Operation::InstanceOf(_) => {
                self.pop_class(OBJECT)?;
                self.push(Type::Int)
            }
            _ => self.use_array(operation),
        }
    }

    fn use_local(&mut self, operation: Operation) -> Checked {
        match operation {
            Operation::LoadInt(local) => {
                self.expect_int(local)?;
                self.push(Type::Int)
            }
            Operation::LoadReference(local) => {
                let loaded = self.local(local);
                require(loaded.is_reference())?;
                self.push(loaded)
            }
            Operation::StoreInt(local) => {
                self.pop_ints(1)?;
                self.set_local(local, Type::Int)
            }
            Operation::StoreReference(local) => {
                let stored = self.pop();
                require(stored.is_reference())?;
                self.set_local(local, stored)
            }
            Operation::Increment(local, _) => self.expect_int(local),
            _ => Ok(()),
        }
    }

    fn rearrange(&mut self, operation: Operation) -> Checked {
        let first = self.pop();
        match operation {
            Operation::Dup => {
                self.push(first)?;
                self.push(first)
            }
            Operation::DupX1 => {
                let second = self.pop();
                self.push(first)?;
                self.push(second)?;
                self.push(first)
            }
            Operation::Swap => {
                let second = self.pop();
                self.push(first)?;
                self.push(second)
            }
            _ => Ok(()),
        }
    }

    fn use_array(&mut self, operation: Operation) -> Checked {
        match operation {
            Operation::LoadIntElement => {
                self.pop_ints(1)?;
                self.pop_fitting(RefType::INT_ARRAY)?;
                self.push(Type::Int)
            }
            Operation::LoadReferenceElement => {
                self.pop_ints(1)?;
                let element = match self.pop_fitting(RefType::OBJECT_ARRAY)? {
                    Type::Reference(array) => Type::Reference(array.element()),
                    null => null,
                };
                self.push(element)
            }
            Operation::StoreIntElement => {
                self.pop_ints(2)?;
                self.pop_fitting(RefType::INT_ARRAY).map(drop)
            }
            Operation::StoreReferenceElement => {
                self.pop_class(OBJECT)?;
                self.pop_ints(1)?;
                self.pop_fitting(RefType::OBJECT_ARRAY).map(drop)
            }
            Operation::NewArray(array) => {
                self.pop_ints(1)?;
                self.push(Type::Reference(array))
            }
            Operation::ArrayLength => {
                let array = self.pop();
                let is_array = matches!(array, Type::Reference(array) if array.is_array());
                require(is_array || array == Type::Null)?;
                self.push(Type::Int)
            }
            _ => Ok(()),
        }
    }

    fn get_field(&mut self, field: FieldUse) -> Checked {
        self.pop_class(field.named)?;
        self.push(field.kind.into())
    }

    fn put_field(&mut self, field: FieldUse) -> Checked {
        self.pop_value(field.kind)?;
        self.pop_class(field.named)
    }

    fn call(&mut self, used: MethodUse, receiver: Option<u8>) -> Checked {
        let program = self.walk.program;
        let signature = used.signature(program);
        for &parameter in signature.parameters.iter().rev() {
            self.pop_value(parameter)?;
        }
        if let Some(class) = receiver {
            self.pop_class(class)?;
        }
        match signature.returns {
            Some(returned) => self.push(returned.into()),
            None => Ok(()),
        }
    }

    /// Every copy of the receiver becomes initialised.
    fn construct(&mut self, used: MethodUse) -> Result<Type, u32> {
        self.call(used, None)?;
        let receiver = self.pop();
        let made = match receiver {
            Type::Uninit(offset) => {
                let made = self.walk.body.new_class_at(usize::from(offset));
                made.filter(|&made| made == used.named)
            }
            Type::UninitThis => self.own_class_built_by(used.named),
            _ => None,
        };
        let made = Type::class(made.ok_or(refusal::CONSTRUCTOR)?);
        replace_all(&mut self.state.locals, receiver, made);
        replace_all(&mut self.state.stack, receiver, made);
        if receiver == Type::UninitThis {
            self.state.flag = false;
        }
        Ok(receiver)
    }

    /// The own class, if the constructor of `named` may be called on this.
    fn own_class_built_by(&self, named: u8) -> Option<u8> {
        let own = self.walk.method.class_number();
        let parent = self.walk.program.hierarchy.parent(own);
        Some(own).filter(|_| named == own || Some(named) == parent)
    }

    /// No two objects from the same new may be uninitialised at once.
    fn make_object(&mut self, offset: u16) -> Checked {
        let made = Type::Uninit(offset);
        if self.state.stack.contains(&made) {
            return Err(refusal::CONSTRUCTOR);
        }
        self.push(made)?;
        replace_all(&mut self.state.locals, made, Type::Top);
        Ok(())
    }

    fn leave(&mut self, operation: Operation) -> Checked {
        let returns = self.walk.method.signature.returns;
        match (operation, returns) {
            (Operation::ReturnInt, Some(ValueType::Int))
            | (Operation::ReturnReference, Some(ValueType::Reference(_))) => {}
            (Operation::ReturnNothing, None) => {}
            _ => return Err(refusal::FIT),
        }
        if let Some(kind) = returns {
            self.pop_value(kind)?;
        }
        if self.state.flag {
            return Err(refusal::CONSTRUCTOR);
        }
        Ok(())
    }

    fn local(&self, index: u8) -> Type {
        let local = self.state.locals.get(usize::from(index));
        local.copied().unwrap_or(Type::Top)
    }

    fn set_local(&mut self, index: u8, value: Type) -> Checked {
        if let Some(local) = self.state.locals.get_mut(usize::from(index)) {
            *local = value;
        }
        Ok(())
    }

    fn expect_int(&self, local: u8) -> Checked {
        require(self.local(local) == Type::Int)
    }

    /// The count has been checked before.
    fn pop(&mut self) -> Type {
        self.state.stack.pop().unwrap_or(Type::Top)
    }

    fn pop_ints(&mut self, count: usize) -> Checked {
        (0..count).try_for_each(|_| require(self.pop() == Type::Int))
    }

    fn pop_fitting(&mut self, wanted: RefType) -> Result<Type, u32> {
        let popped = self.pop();
        require(popped.fits_reference(wanted, &self.walk.program.hierarchy))?;
        Ok(popped)
    }

    fn pop_class(&mut self, wanted: u8) -> Checked {
        self.pop_fitting(RefType::class(wanted)).map(drop)
    }

    fn pop_value(&mut self, wanted: ValueType) -> Checked {
        match wanted {
            ValueType::Int => self.pop_ints(1),
            ValueType::Reference(wanted) => self.pop_fitting(wanted).map(drop),
        }
    }

    fn push(&mut self, value: Type) -> Checked {
        if self.state.stack.len() >= self.walk.body.max_stack {
            return Err(refusal::OPERAND_COUNT);
        }
        self.state.stack.push(value);
        Ok(())
    }
}

fn require(fits: bool) -> Checked {
    if fits {
        Ok(())
    } else {
        Err(refusal::FIT)
    }
}
