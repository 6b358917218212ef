//! Instructions: scanned from the code bytes, then with every operand resolved.

use crate::opcodes::ROWS;
use crate::resolve::{FieldUse, MethodUse};
use crate::types::RefType;
use crate::verdict::{refusal, Fault};

/// newarray's code for int.
const INT_ARRAY_CODE: u8 = 10;

/// An instruction as it stands in the code.
#[derive(Clone, Copy, Debug)]
pub(crate) struct Scanned {
    pub offset: usize,
    pub opcode: u8,
    pub operands: [u8; 2],
}

impl Scanned {
    pub fn pool_index(&self) -> u32 {
        u32::from(u16::from_be_bytes(self.operands))
    }

    pub fn branch_target(&self) -> Option<usize> {
        let delta = i16::from_be_bytes(self.operands);
        let target = self.offset as i64 + i64::from(delta);
        usize::try_from(target).ok()
    }

    /// The local that the instruction reads or writes.
    fn local(&self) -> Option<u8> {
        match self.opcode {
            0x15 | 0x19 | 0x36 | 0x3a | 0x84 => Some(self.operands[0]),
            0x1a..=0x1d => Some(self.opcode - 0x1a),
            0x2a..=0x2d => Some(self.opcode - 0x2a),
            0x3b..=0x3e => Some(self.opcode - 0x3b),
            0x4b..=0x4e => Some(self.opcode - 0x4b),
            _ => None,
        }
    }
}

/// All instructions in order, or the first that is unlisted, cut off, names a local
/// past max_locals, or makes arrays of another code than int's.
pub(crate) fn scan(code: &[u8], max_locals: usize) -> Result<Vec<Scanned>, Fault> {
    let mut found = Vec::new();
    let mut offset = 0;
    while offset < code.len() {
        let (scanned, length) = scan_one(code, offset, max_locals)
            .ok_or_else(|| Fault::new(refusal::INSTRUCTION, offset))?;
        found.push(scanned);
        offset += length;
    }
    Ok(found)
}

fn scan_one(code: &[u8], offset: usize, max_locals: usize) -> Option<(Scanned, usize)> {
    let opcode = *code.get(offset)?;
    let length = usize::from(ROWS.get(usize::from(opcode))?.length);
    let bytes = code.get(offset..offset + length)?;
    if bytes.is_empty() {
        return None;
    }
    let operand = |index: usize| bytes.get(index).copied().unwrap_or(0);
    let scanned = Scanned {
        offset,
        opcode,
        operands: [operand(1), operand(2)],
    };
    let local_exists = scanned
        .local()
        .map_or(true, |local| usize::from(local) < max_locals);
    let array_code_good = opcode != 0xbc || operand(1) == INT_ARRAY_CODE;
    Some((scanned, length)).filter(|_| local_exists && array_code_good)
}

/// An instruction with what it needs to be typed and to run.
#[derive(Clone, Copy, Debug)]
pub(crate) struct Instruction {
    pub operation: Operation,
    /// Operands taken and left, calls' arguments and results included.
    pub taken: u8,
    pub left: u8,
    pub offset: u16,
}

/// Branch targets are positions in the method's list of instructions.
#[derive(Clone, Copy, Debug)]
pub(crate) enum Operation {
    Nop,
    PushNull,
    PushInt(i32),
    LoadInt(u8),
    LoadReference(u8),
    StoreInt(u8),
    StoreReference(u8),
    Increment(u8, i8),
    LoadIntElement,
    LoadReferenceElement,
    StoreIntElement,
    StoreReferenceElement,
    Pop,
    Dup,
    DupX1,
    Swap,
    Negate,
    Binary(Binary),
    IfInt(Condition, u16),
    IfInts(Condition, u16),
    IfReferences {
        equal: bool,
        target: u16,
    },
    IfNull {
        null: bool,
        target: u16,
    },
    Goto(u16),
    ReturnInt,
    ReturnReference,
    ReturnNothing,
    GetField(FieldUse),
    PutField(FieldUse),
    InvokeVirtual(MethodUse),
    InvokeConstructor(MethodUse),
    InvokeStatic(MethodUse),
    New(u8),
    /// Of the array's own type.
    NewArray(RefType),
    ArrayLength,
    Throw,
    CheckCast(RefType),
    InstanceOf(RefType),
}

#[derive(Clone, Copy, Debug, PartialEq, Eq)]
pub(crate) enum Binary {
    Add,
    Subtract,
    Multiply,
    Divide,
    Remainder,
    ShiftLeft,
    ShiftRight,
    ShiftRightUnsigned,
    And,
    Or,
    Xor,
}

#[derive(Clone, Copy, Debug, PartialEq, Eq)]
pub(crate) enum Condition {
    Equal,
    NotEqual,
    Less,
    GreaterOrEqual,
    Greater,
    LessOrEqual,
}

impl Operation {
    /// No instruction follows on from this one.
    pub fn ends_flow(self) -> bool {
        matches!(
            self,
            Operation::Goto(_)
                | Operation::Throw
                | Operation::ReturnInt
                | Operation::ReturnReference
                | Operation::ReturnNothing
        )
    }

    pub fn branch_target(self) -> Option<usize> {
        match self {
            Operation::IfInt(_, target)
            | Operation::IfInts(_, target)
            | Operation::IfReferences { target, .. }
            | Operation::IfNull { target, .. }
            | Operation::Goto(target) => Some(usize::from(target)),
            _ => None,
        }
    }
}

/// An instruction that names neither a target nor a pool entry.
pub(crate) fn plain_operation(scanned: &Scanned) -> Option<Operation> {
    if let Some(local) = scanned.local() {
        return Some(local_operation(scanned, local));
    }
    let operation = match scanned.opcode {
        0x00 => Operation::Nop,
        0x01 => Operation::PushNull,
        0x02..=0x08 => Operation::PushInt(i32::from(scanned.opcode) - 3),
        0x10 => Operation::PushInt(i32::from(scanned.operands[0] as i8)),
        0x11 => Operation::PushInt(i32::from(i16::from_be_bytes(scanned.operands))),
        0x2e => Operation::LoadIntElement,
        0x32 => Operation::LoadReferenceElement,
        0x4f => Operation::StoreIntElement,
        0x53 => Operation::StoreReferenceElement,
        0x57 => Operation::Pop,
        0x59 => Operation::Dup,
        0x5a => Operation::DupX1,
        0x5f => Operation::Swap,
        0x74 => Operation::Negate,
        0xac => Operation::ReturnInt,
        0xb0 => Operation::ReturnReference,
        0xb1 => Operation::ReturnNothing,
        0xbc => Operation::NewArray(RefType::INT_ARRAY),
        0xbe => Operation::ArrayLength,
        0xbf => Operation::Throw,
        opcode => Operation::Binary(binary(opcode)?),
    };
    Some(operation)
}

fn local_operation(scanned: &Scanned, local: u8) -> Operation {
    match scanned.opcode {
        0x15 | 0x1a..=0x1d => Operation::LoadInt(local),
        0x19 | 0x2a..=0x2d => Operation::LoadReference(local),
        0x36 | 0x3b..=0x3e => Operation::StoreInt(local),
        0x84 => Operation::Increment(local, scanned.operands[1] as i8),
        _ => Operation::StoreReference(local),
    }
}

fn binary(opcode: u8) -> Option<Binary> {
    let found = match opcode {
        0x60 => Binary::Add,
        0x64 => Binary::Subtract,
        0x68 => Binary::Multiply,
        0x6c => Binary::Divide,
        0x70 => Binary::Remainder,
        0x78 => Binary::ShiftLeft,
        0x7a => Binary::ShiftRight,
        0x7c => Binary::ShiftRightUnsigned,
        0x7e => Binary::And,
        0x80 => Binary::Or,
        0x82 => Binary::Xor,
        _ => return None,
    };
    Some(found)
}

pub(crate) fn is_branch(opcode: u8) -> bool {
    matches!(opcode, 0x99..=0xa7 | 0xc6 | 0xc7)
}

/// The branch of an opcode for which `is_branch` holds.
pub(crate) fn branch_operation(opcode: u8, target: u16) -> Operation {
    match opcode {
        0x99..=0x9e => Operation::IfInt(condition(opcode - 0x99), target),
        0x9f..=0xa4 => Operation::IfInts(condition(opcode - 0x9f), target),
        0xa5 | 0xa6 => Operation::IfReferences {
            equal: opcode == 0xa5,
            target,
        },
        0xc6 | 0xc7 => Operation::IfNull {
            null: opcode == 0xc6,
            target,
        },
        _ => Operation::Goto(target),
    }
}

fn condition(position: u8) -> Condition {
    match position {
        0 => Condition::Equal,
        1 => Condition::NotEqual,
        2 => Condition::Less,
        3 => Condition::GreaterOrEqual,
        4 => Condition::Greater,
        _ => Condition::LessOrEqual,
    }
}
