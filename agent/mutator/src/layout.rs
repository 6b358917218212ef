//! Where things stand in a bundle, as far as it can be read.

use std::ops::Range;

/// A number or byte that can be changed in place.
#[derive(Clone, Copy, Debug, PartialEq, Eq)]
pub enum Kind {
    Header,
    PoolTag,
    PoolIndex,
    TextLength,
    Count,
    Access,
    OwnIndex,
    AttributeName,
    AttributeLength,
    Limit,
    CodeLength,
    Opcode,
    Operand,
    Branch,
    PoolOperand,
    Table,
    FrameCount,
    FrameByte,
}

#[derive(Clone, Copy, Debug)]
pub struct Spot {
    pub kind: Kind,
    pub at: usize,
    pub width: usize,
    /// Index of the class that it stands in.
    pub class: usize,
}

#[derive(Debug)]
pub struct PoolEntry {
    pub index: usize,
    pub tag: u8,
    /// All bytes after the tag.
    pub content: Range<usize>,
}

#[derive(Debug)]
pub struct Member {
    pub bytes: Range<usize>,
    /// Where the number of such members stands.
    pub count_at: usize,
}

#[derive(Debug)]
pub struct Method {
    /// Where the length of the Code attribute stands.
    pub attribute_length_at: usize,
    pub code_length_at: usize,
    pub instructions: Vec<Range<usize>>,
    pub frames: Option<FrameTable>,
}

#[derive(Debug)]
pub struct FrameTable {
    pub attribute_length_at: usize,
    pub count_at: usize,
    pub frames: Vec<Range<usize>>,
}

#[derive(Debug, Default)]
pub struct Layout {
    pub spots: Vec<Spot>,
    pub classes: Vec<Range<usize>>,
    /// By class.
    pub pools: Vec<Vec<PoolEntry>>,
    pub members: Vec<Member>,
    pub methods: Vec<Method>,
}

impl Layout {
    /// Reading stops quietly where the bundle makes no sense.
    pub fn of(bytes: &[u8]) -> Layout {
        let mut reader = Reader {
            bytes,
            at: 0,
            layout: Layout::default(),
        };
        while reader.at < bytes.len() {
            if reader.class().is_none() {
                break;
            }
        }
        reader.layout
    }
}

/// Length of each opcode, 0 if it is none of the listed ones.
pub fn opcode_length(opcode: u8) -> usize {
    match opcode {
        0x00..=0x08 | 0x1a..=0x1d | 0x2a..=0x2e | 0x32 | 0x3b..=0x3e | 0x4b..=0x4f => 1,
        0x53 | 0x57 | 0x59 | 0x5a | 0x5f | 0x60 | 0x64 | 0x68 | 0x6c | 0x70 | 0x74 => 1,
        0x78 | 0x7a | 0x7c | 0x7e | 0x80 | 0x82 | 0xac | 0xb0 | 0xb1 | 0xbe | 0xbf => 1,
        0x10 | 0x12 | 0x15 | 0x19 | 0x36 | 0x3a | 0xbc => 2,
        0x11 | 0x84 | 0x99..=0xa7 | 0xb4..=0xb8 | 0xbb | 0xbd | 0xc0 | 0xc1 | 0xc6 | 0xc7 => 3,
        _ => 0,
    }
}

/// Big-endian value; 0 if it is not all there.
pub fn number_at(bytes: &[u8], at: usize, width: usize) -> usize {
    let part = at.checked_add(width).and_then(|end| bytes.get(at..end));
    let part = part.unwrap_or(&[]);
    part.iter()
        .fold(0, |value, &byte| (value << 8) | usize::from(byte))
}

struct Reader<'a> {
    bytes: &'a [u8],
    at: usize,
    layout: Layout,
}

impl Reader<'_> {
    fn class(&mut self) -> Option<()> {
        let start = self.at;
        self.layout.pools.push(Vec::new());
        for width in [4, 2, 2] {
            self.number(Kind::Header, width)?;
        }
        self.pool()?;
        self.number(Kind::Access, 2)?;
        self.number(Kind::OwnIndex, 2)?;
        self.number(Kind::OwnIndex, 2)?;
        self.number(Kind::Count, 2)?;
        self.members(false)?;
        self.members(true)?;
        self.attributes(false)?;
        self.layout.classes.push(start..self.at);
        Some(())
    }

    fn pool(&mut self) -> Option<()> {
        let count = self.number(Kind::Count, 2)?;
        for index in 1..count {
            let tag = self.number(Kind::PoolTag, 1)? as u8;
            let start = self.at;
            match tag {
                1 => {
                    let length = self.number(Kind::TextLength, 2)?;
                    self.skip(length)?;
                }
                3 => self.skip(4)?,
                7 => self.number(Kind::PoolIndex, 2).map(drop)?,
                9 | 10 | 12 => {
                    self.number(Kind::PoolIndex, 2)?;
                    self.number(Kind::PoolIndex, 2)?;
                }
                _ => return None,
            }
            let content = start..self.at;
            let entry = PoolEntry {
                index,
                tag,
                content,
            };
            self.layout.pools.last_mut()?.push(entry);
        }
        Some(())
    }

    fn members(&mut self, methods: bool) -> Option<()> {
        let count_at = self.at;
        let count = self.number(Kind::Count, 2)?;
        for _ in 0..count {
            let start = self.at;
            self.number(Kind::Access, 2)?;
            self.number(Kind::OwnIndex, 2)?;
            self.number(Kind::OwnIndex, 2)?;
            self.attributes(methods)?;
            let bytes = start..self.at;
            self.layout.members.push(Member { bytes, count_at });
        }
        Some(())
    }

    fn attributes(&mut self, of_method: bool) -> Option<()> {
        let count = self.number(Kind::Count, 2)?;
        for _ in 0..count {
            let name = self.number(Kind::AttributeName, 2)?;
            let length_at = self.at;
            let length = self.number(Kind::AttributeLength, 4)?;
            let end = self.at.checked_add(length)?;
            if of_method && self.is_named(name, b"Code") {
                self.code(length_at)?;
            }
            self.at = end;
            self.bytes.get(..end)?;
        }
        Some(())
    }

    fn code(&mut self, attribute_length_at: usize) -> Option<()> {
        self.number(Kind::Limit, 2)?;
        self.number(Kind::Limit, 2)?;
        let code_length_at = self.at;
        let length = self.number(Kind::CodeLength, 4)?;
        let method = Method {
            attribute_length_at,
            code_length_at,
            instructions: self.instructions(length)?,
            frames: None,
        };
        self.layout.methods.push(method);
        let entries = self.number(Kind::Count, 2)?;
        for _ in 0..entries.checked_mul(4)? {
            self.number(Kind::Table, 2)?;
        }
        let count = self.number(Kind::Count, 2)?;
        for _ in 0..count {
            let name = self.number(Kind::AttributeName, 2)?;
            let length_at = self.at;
            let length = self.number(Kind::AttributeLength, 4)?;
            let end = self.at.checked_add(length)?;
            if self.is_named(name, b"StackMapTable") {
                let frames = self.frame_table(length_at, end)?;
                self.layout.methods.last_mut()?.frames = Some(frames);
            }
            self.at = end;
        }
        Some(())
    }

    fn instructions(&mut self, length: usize) -> Option<Vec<Range<usize>>> {
        let end = self.at.checked_add(length)?;
        let mut found = Vec::new();
        while self.at < end {
            let start = self.at;
            let opcode = *self.bytes.get(start)?;
            let length = opcode_length(opcode);
            if length == 0 {
                break;
            }
            self.number(Kind::Opcode, 1)?;
            match opcode {
                0x99..=0xa7 | 0xc6 | 0xc7 => self.number(Kind::Branch, 2).map(drop)?,
                0xb4..=0xb8 | 0xbb | 0xbd | 0xc0 | 0xc1 => {
                    self.number(Kind::PoolOperand, 2).map(drop)?
                }
                0x12 => self.number(Kind::PoolOperand, 1).map(drop)?,
                _ => (1..length).try_for_each(|_| self.number(Kind::Operand, 1).map(drop))?,
            }
            found.push(start..self.at);
        }
        self.at = end;
        Some(found)
    }

    fn frame_table(&mut self, attribute_length_at: usize, end: usize) -> Option<FrameTable> {
        let count_at = self.at;
        let count = self.number(Kind::FrameCount, 2)?;
        let mut frames = Vec::new();
        for _ in 0..count {
            let start = self.at;
            self.frame()?;
            if self.at > end {
                break;
            }
            frames.push(start..self.at);
        }
        Some(FrameTable {
            attribute_length_at,
            count_at,
            frames,
        })
    }

    fn frame(&mut self) -> Option<()> {
        let tag = self.number(Kind::FrameByte, 1)?;
        if tag > 246 {
            self.number(Kind::FrameByte, 2)?;
        }
        match tag {
            64..=127 | 247 => self.verification_types(1),
            252..=254 => self.verification_types(tag - 251),
            255 => {
                let locals = self.number(Kind::FrameByte, 2)?;
                self.verification_types(locals)?;
                let stack = self.number(Kind::FrameByte, 2)?;
                self.verification_types(stack)
            }
            _ => Some(()),
        }
    }

    fn verification_types(&mut self, count: usize) -> Option<()> {
        for _ in 0..count {
            let tag = self.number(Kind::FrameByte, 1)?;
            if tag == 7 || tag == 8 {
                self.number(Kind::FrameByte, 2)?;
            }
        }
        Some(())
    }

    fn is_named(&self, index: usize, name: &[u8]) -> bool {
        let pool = self.layout.pools.last();
        let mut entries = pool.into_iter().flatten();
        let entry = entries.find(|entry| entry.index == index && entry.tag == 1);
        let text = entry.and_then(|e| self.bytes.get(e.content.start + 2..e.content.end));
        text == Some(name)
    }

    fn class_index(&self) -> usize {
        self.layout.pools.len().saturating_sub(1)
    }

    /// Reads a number and notes where it stands.
    fn number(&mut self, kind: Kind, width: usize) -> Option<usize> {
        let at = self.at;
        self.skip(width)?;
        let class = self.class_index();
        self.layout.spots.push(Spot {
            kind,
            at,
            width,
            class,
        });
        Some(number_at(self.bytes, at, width))
    }

    fn skip(&mut self, length: usize) -> Option<()> {
        let end = self.at.checked_add(length)?;
        self.bytes.get(self.at..end)?;
        self.at = end;
        Some(())
    }
}
