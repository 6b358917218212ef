//! Phase D, first part: the frames of a StackMapTable (JVMS 4.7.4).

use crate::bytes::Cursor;
use crate::hierarchy::Hierarchy;
use crate::limits;
use crate::link::Method;
use crate::resolve::Reference;
use crate::shape::Body;
use crate::types::Type;
use crate::verdict::{refusal, Fault};

/// What is known of locals and operands at one point of the code.
#[derive(Clone, Debug)]
pub(crate) struct State {
    /// Always max_locals long.
    pub locals: Vec<Type>,
    pub stack: Vec<Type>,
    /// This constructor's object is not initialised yet.
    pub flag: bool,
}

impl State {
    /// Refusal number of the first thing that does not fit.
    pub fn fits(&self, frame: &State, hierarchy: &Hierarchy<'_>) -> Result<(), u32> {
        if self.flag != frame.flag {
            return Err(refusal::CONSTRUCTOR);
        }
        let slots_fit = |own: &[Type], wanted: &[Type]| {
            own.len() == wanted.len()
                && own
                    .iter()
                    .zip(wanted)
                    .all(|(own, &wanted)| own.fits(wanted, hierarchy))
        };
        if slots_fit(&self.stack, &frame.stack) && slots_fit(&self.locals, &frame.locals) {
            Ok(())
        } else {
            Err(refusal::FIT)
        }
    }
}

/// The state before a method's first instruction.
pub(crate) fn entry_state(method: &Method<'_>, body: &Body<'_>) -> State {
    State {
        locals: padded(&parameter_list(method), body.max_locals),
        stack: Vec::new(),
        flag: method.is_constructor(),
    }
}

fn parameter_list(method: &Method<'_>) -> Vec<Type> {
    let receiver = if method.is_static {
        None
    } else if method.is_constructor() {
        Some(Type::UninitThis)
    } else {
        Some(Type::class(method.class_number()))
    };
    let parameters = method.signature.parameters.iter();
    let parameters = parameters.map(|&kind| Type::from(kind));
    receiver.into_iter().chain(parameters).collect()
}

fn padded(list: &[Type], length: usize) -> Vec<Type> {
    let mut locals = list.to_vec();
    locals.resize(length, Type::Top);
    locals
}

/// The frames by position in the list of instructions.
pub(crate) fn read_frames(
    method: &Method<'_>,
    body: &Body<'_>,
    references: &[Reference],
) -> Result<Vec<Option<State>>, Fault> {
    let mut frames = vec![None; body.instructions.len()];
    let table = match body.frame_table {
        Some(table) => table,
        None => return Ok(frames),
    };
    let mut reader = FrameReader {
        cursor: Cursor::new(table),
        references,
        body,
        in_constructor: method.is_constructor(),
        written: parameter_list(method),
        last_offset: None,
    };
    let malformed = |number: u32| Fault::new(refusal::FRAME_TABLE, number as usize);
    let count = reader.cursor.u2().map_err(|_| malformed(0))?;
    if count > limits::FRAMES {
        return Err(malformed(0));
    }
    for number in 0..count {
        let (position, state) = reader.frame().ok_or_else(|| malformed(number))?;
        if let Some(frame) = frames.get_mut(position) {
            *frame = Some(state);
        }
    }
    if reader.cursor.at_end() {
        Ok(frames)
    } else {
        Err(malformed(count))
    }
}

/// Every None below is a malformed frame: nothing tells its faults apart.
struct FrameReader<'s, 'a> {
    cursor: Cursor<'s>,
    references: &'s [Reference],
    body: &'s Body<'a>,
    in_constructor: bool,
    /// The locals as written so far, without padding.
    written: Vec<Type>,
    last_offset: Option<usize>,
}

impl FrameReader<'_, '_> {
    /// The next frame and the position of its instruction.
    fn frame(&mut self) -> Option<(usize, State)> {
        let tag = self.cursor.u1().ok()?;
        let delta = match tag {
            0..=127 => usize::from(tag & 63),
            128..=246 => return None,
            247..=255 => self.u2()?,
        };
        let stack_length = match tag {
            64..=127 | 247 => 1,
            255 => self.full_locals()?,
            _ => {
                self.change_locals(tag)?;
                0
            }
        };
        let stack = self.stack(stack_length)?;
        let position = self.advance(delta)?;
        let flag = self.written.contains(&Type::UninitThis) || stack.contains(&Type::UninitThis);
        let state = State {
            locals: padded(&self.written, self.body.max_locals),
            stack,
            flag,
        };
        Some((position, state))
    }

    /// Chop and append; other tags leave the locals.
    fn change_locals(&mut self, tag: u8) -> Option<()> {
        match tag {
            248..=250 => {
                let kept = self.written.len().checked_sub(usize::from(251 - tag))?;
                self.written.truncate(kept);
            }
            252..=254 => self.append(usize::from(tag - 251))?,
            _ => {}
        }
        Some(())
    }

    /// A full frame's locals; gives the length of its stack.
    fn full_locals(&mut self) -> Option<usize> {
        self.written.clear();
        let count = self.u2()?;
        self.append(count)?;
        self.u2()
    }

    fn append(&mut self, count: usize) -> Option<()> {
        if self.written.len() + count > self.body.max_locals {
            return None;
        }
        for _ in 0..count {
            let added = self.verification_type()?;
            self.written.push(added);
        }
        Some(())
    }

    fn stack(&mut self, length: usize) -> Option<Vec<Type>> {
        if length > self.body.max_stack {
            return None;
        }
        let types = (0..length).map(|_| self.verification_type());
        let types: Vec<Type> = types.collect::<Option<_>>()?;
        Some(types).filter(|types| !types.contains(&Type::Top))
    }

    fn advance(&mut self, delta: usize) -> Option<usize> {
        let offset = match self.last_offset {
            Some(last) => last + delta + 1,
            None => delta,
        };
        self.last_offset = Some(offset);
        self.body.starts.position_of(offset).map(usize::from)
    }

    fn verification_type(&mut self) -> Option<Type> {
        match self.cursor.u1().ok()? {
            0 => Some(Type::Top),
            1 => Some(Type::Int),
            5 => Some(Type::Null),
            6 => Some(Type::UninitThis).filter(|_| self.in_constructor),
            7 => {
                let index = self.u2()?;
                match self.references.get(index) {
                    Some(&Reference::Class(class)) => Some(Type::Reference(class)),
                    _ => None,
                }
            }
            8 => {
                let offset = self.u2()?;
                self.body.new_class_at(offset)?;
                Some(Type::Uninit(offset as u16))
            }
            _ => None,
        }
    }

    fn u2(&mut self) -> Option<usize> {
        self.cursor.u2().ok().map(|value| value as usize)
    }
}
