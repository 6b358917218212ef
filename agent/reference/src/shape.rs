//! Phase C: every method has one sound Code whose operands all lead somewhere.

use crate::classfile::{Code, TableEntry};
use crate::instruction::{
    branch_operation, is_branch, plain_operation, scan, Instruction, Operation, Scanned,
};
use crate::limits;
use crate::link::{Method, Program};
use crate::opcodes::ROWS;
use crate::resolve::{resolve_pool, MethodUse, Reference};
use crate::types::{RefType, THROWABLE};
use crate::verdict::{refusal, Fault, Verdict};

/// A linked bundle whose methods are decoded.
pub(crate) struct Shaped<'a> {
    /// The meaning of each class's pool entries.
    pub references: Vec<Vec<Reference>>,
    /// In the order of the program's methods.
    pub bodies: Vec<Body<'a>>,
}

pub(crate) struct Body<'a> {
    pub max_stack: usize,
    pub max_locals: usize,
    pub instructions: Vec<Instruction>,
    pub starts: Starts,
    pub handlers: Vec<Handler>,
    pub frame_table: Option<&'a [u8]>,
}

impl Body<'_> {
    /// The class that the new at a code offset makes.
    pub fn new_class_at(&self, offset: usize) -> Option<u8> {
        let position = usize::from(self.starts.position_of(offset)?);
        match self.instructions.get(position)?.operation {
            Operation::New(class) => Some(class),
            _ => None,
        }
    }
}

/// Which code offsets begin an instruction.
pub(crate) struct Starts {
    positions: Vec<Option<u16>>,
}

/// Start, end and target are positions in the list of instructions.
#[derive(Clone, Copy, Debug)]
pub(crate) struct Handler {
    start: u16,
    end: u16,
    pub target: u16,
    /// Throwable where the table has no catch type.
    pub catches: u8,
}

impl Handler {
    pub fn covers(&self, position: usize) -> bool {
        usize::from(self.start) <= position && position < usize::from(self.end)
    }
}

impl Starts {
    fn new(code_length: usize, scanned: &[Scanned]) -> Starts {
        let mut positions = vec![None; code_length];
        for (position, instruction) in scanned.iter().enumerate() {
            if let Some(start) = positions.get_mut(instruction.offset) {
                *start = Some(position as u16);
            }
        }
        Starts { positions }
    }

    pub fn code_length(&self) -> usize {
        self.positions.len()
    }

    /// Position in the list of instructions.
    pub fn position_of(&self, offset: usize) -> Option<u16> {
        self.positions.get(offset).copied().flatten()
    }
}

pub(crate) fn shape<'a>(program: &Program<'a>) -> Result<Shaped<'a>, Verdict> {
    let references: Vec<Vec<Reference>> = (0..program.classes.len())
        .map(|class| resolve_pool(program, class))
        .collect();
    let mut bodies = Vec::with_capacity(program.methods.len());
    for method in &program.methods {
        let of_class = references.get(method.class).map_or(&[][..], Vec::as_slice);
        let body = shape_method(program, of_class, method);
        let refuse = |fault: Fault| fault.in_method(method.class as u32, method.index as u32);
        bodies.push(body.map_err(refuse)?);
    }
    Ok(Shaped { references, bodies })
}

fn shape_method<'a>(
    program: &Program<'a>,
    references: &[Reference],
    method: &Method<'a>,
) -> Result<Body<'a>, Fault> {
    let code = only_code(method).ok_or_else(|| Fault::new(refusal::CODE, 0))?;
    let scanned = scan(code.bytes, code.max_locals)?;
    let starts = Starts::new(code.bytes.len(), &scanned);
    let resolver = Resolver {
        program,
        references,
        starts: &starts,
        instruction_count: scanned.len(),
    };
    let mut instructions = Vec::with_capacity(scanned.len());
    for one in &scanned {
        let resolved = resolver.instruction(one);
        instructions.push(resolved.map_err(|number| Fault::new(number, one.offset))?);
    }
    let mut handlers = Vec::with_capacity(code.table.len());
    for entry in &code.table {
        let handler = resolver.handler(entry);
        handlers.push(handler.map_err(|number| Fault::new(number, entry.start))?);
    }
    Ok(Body {
        max_stack: code.max_stack,
        max_locals: code.max_locals,
        instructions,
        starts,
        handlers,
        frame_table: code.frame_tables.first().copied(),
    })
}

/// The method's one Code, if it has one StackMapTable at most and room for the parameters.
fn only_code<'m, 'a>(method: &'m Method<'a>) -> Option<&'m Code<'a>> {
    match method.codes.as_slice() {
        [code] => Some(code).filter(|code| {
            code.frame_tables.len() <= 1 && code.max_locals >= method.parameter_slots()
        }),
        _ => None,
    }
}

/// What the targets and references of one method's code lead to.
struct Resolver<'s, 'a> {
    program: &'s Program<'a>,
    references: &'s [Reference],
    starts: &'s Starts,
    instruction_count: usize,
}

impl Resolver<'_, '_> {
    fn instruction(&self, scanned: &Scanned) -> Result<Instruction, u32> {
        let operation = self.operation(scanned)?;
        let row = ROWS[usize::from(scanned.opcode)];
        let (mut taken, mut left) = (row.taken, row.left);
        if let Operation::InvokeVirtual(used)
        | Operation::InvokeConstructor(used)
        | Operation::InvokeStatic(used) = operation
        {
            let signature = used.signature(self.program);
            taken += signature.parameters.len() as u8;
            left += u8::from(signature.returns.is_some());
        }
        Ok(Instruction {
            operation,
            taken,
            left,
            offset: scanned.offset as u16,
        })
    }

    fn operation(&self, scanned: &Scanned) -> Result<Operation, u32> {
        if is_branch(scanned.opcode) {
            let target = scanned.branch_target();
            let position = target.and_then(|offset| self.starts.position_of(offset));
            let position = position.ok_or(refusal::TARGET)?;
            return Ok(branch_operation(scanned.opcode, position));
        }
        plain_operation(scanned)
            .or_else(|| self.referring_operation(scanned))
            .ok_or(refusal::REFERENCE)
    }

    fn referring_operation(&self, scanned: &Scanned) -> Option<Operation> {
        let index = match scanned.opcode {
            0x12 => u32::from(scanned.operands[0]),
            _ => scanned.pool_index(),
        };
        match (scanned.opcode, self.reference(index)) {
            (0x12, Reference::Integer(value)) => Some(Operation::PushInt(value)),
            (0xb4, Reference::Field(field)) => Some(Operation::GetField(field)),
            (0xb5, Reference::Field(field)) => Some(Operation::PutField(field)),
            (opcode, Reference::Method(method)) => self.call(opcode, method),
            (opcode, Reference::Class(class)) => class_operation(opcode, class),
            _ => None,
        }
    }

    fn call(&self, opcode: u8, used: MethodUse) -> Option<Operation> {
        let is_static = used.is_static(self.program);
        let is_constructor = used.is_constructor(self.program);
        match opcode {
            0xb6 if !is_static && !is_constructor => Some(Operation::InvokeVirtual(used)),
            0xb7 if is_constructor => Some(Operation::InvokeConstructor(used)),
            0xb8 if is_static => Some(Operation::InvokeStatic(used)),
            _ => None,
        }
    }

    fn handler(&self, entry: &TableEntry) -> Result<Handler, u32> {
        let (start, end, target) = self.handler_positions(entry).ok_or(refusal::TARGET)?;
        let catches = self.caught(entry.catch_type).ok_or(refusal::REFERENCE)?;
        Ok(Handler {
            start,
            end,
            target,
            catches,
        })
    }

    fn handler_positions(&self, entry: &TableEntry) -> Option<(u16, u16, u16)> {
        let start = self.starts.position_of(entry.start)?;
        let end = if entry.end == self.starts.code_length() {
            self.instruction_count as u16
        } else {
            self.starts.position_of(entry.end)?
        };
        let target = self.starts.position_of(entry.handler)?;
        Some((start, end, target)).filter(|_| start < end)
    }

    fn caught(&self, catch_type: u32) -> Option<u8> {
        if catch_type == 0 {
            return Some(THROWABLE);
        }
        let class = match self.reference(catch_type) {
            Reference::Class(class) => class.as_class()?,
            _ => return None,
        };
        Some(class).filter(|&class| self.program.hierarchy.is_below(class, THROWABLE))
    }

    fn reference(&self, index: u32) -> Reference {
        let reference = self.references.get(index as usize);
        reference.copied().unwrap_or(Reference::Unusable)
    }
}

fn class_operation(opcode: u8, class: RefType) -> Option<Operation> {
    match opcode {
        0xbb => class.as_class().map(Operation::New),
        0xbd if class.depth < limits::ARRAY_DEPTH => Some(Operation::NewArray(class.array_of())),
        0xc0 => Some(Operation::CheckCast(class)),
        0xc1 => Some(Operation::InstanceOf(class)),
        _ => None,
    }
}
