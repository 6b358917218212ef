//! Following the layout of a bundle and noting each item on the way.

use super::cursor::Cursor;
use super::pool::{read_constant, Constant};
use super::{Class, Code, Item, Member, Outline, Owner, TableEntry, What};
use crate::BUNDLE_CLASSES;

const MAGIC: u32 = 0xcafe_babe;

/// Everything of a bundle that can be read.
pub fn read(bundle: &[u8]) -> Outline<'_> {
    let mut reader = Reader {
        cursor: Cursor::new(bundle),
        outline: Outline::default(),
        owner: Owner::Class,
    };
    // One class more than a bundle holds, to name the one too many.
    while !reader.cursor.at_end() && reader.outline.classes.len() <= BUNDLE_CLASSES {
        if reader.class().is_none() {
            break;
        }
    }
    reader.outline
}

struct Reader<'a> {
    cursor: Cursor<'a>,
    outline: Outline<'a>,
    owner: Owner,
}

/// None from any of these means that nothing after it can be read.
impl<'a> Reader<'a> {
    fn note(&mut self, start: usize, what: What, value: Option<u32>) {
        let class = self.outline.classes.len().saturating_sub(1);
        self.outline.items.push(Item {
            start,
            class,
            owner: self.owner,
            what,
            value,
        });
    }

    fn u2(&mut self, what: What) -> Option<u32> {
        let start = self.cursor.position();
        let value = self.cursor.u2();
        self.note(start, what, value);
        value
    }

    fn u4(&mut self, what: What) -> Option<u32> {
        let start = self.cursor.position();
        let value = self.cursor.u4();
        self.note(start, what, value);
        value
    }

    fn current(&mut self) -> Option<&mut Class<'a>> {
        self.outline.classes.last_mut()
    }

    fn class(&mut self) -> Option<()> {
        let start = self.cursor.position();
        self.owner = Owner::Class;
        self.outline.classes.push(Class {
            start,
            ..Class::default()
        });
        if self.u4(What::Magic)? != MAGIC {
            return None;
        }
        self.u2(What::MinorVersion)?;
        self.u2(What::MajorVersion)?;
        self.pool()?;
        self.u2(What::Access)?;
        let name = self.u2(What::ThisClass)?;
        let parent = self.u2(What::SuperClass)?;
        let class = self.current()?;
        class.name = class.pool.class_name(name);
        class.parent = class.pool.class_name(parent);
        let interfaces = self.u2(What::InterfaceCount)?;
        self.cursor.take(2 * interfaces as usize)?;
        for index in 0..self.u2(What::FieldCount)? as usize {
            self.member(Owner::Field(index))?;
        }
        self.owner = Owner::Class;
        for index in 0..self.u2(What::MethodCount)? as usize {
            self.member(Owner::Method(index))?;
        }
        self.owner = Owner::Class;
        self.attributes()
    }

    fn pool(&mut self) -> Option<()> {
        let count = self.u2(What::PoolCount)?;
        self.current()?.pool.constants.push(Constant::Nothing);
        let mut index = 1;
        while index < count {
            let start = self.cursor.position();
            let tag = self.cursor.u1();
            self.note(start, What::PoolEntry(index), tag);
            let constant = read_constant(tag?, &mut self.cursor)?;
            let constants = &mut self.current()?.pool.constants;
            constants.push(constant);
            index += 1;
            // A long or double takes two indices.
            if matches!(tag, Some(5 | 6)) {
                constants.push(Constant::Nothing);
                index += 1;
            }
        }
        Some(())
    }

    fn members(&mut self) -> Option<&mut Vec<Member<'a>>> {
        let owner = self.owner;
        let class = self.current()?;
        match owner {
            Owner::Class => None,
            Owner::Field(_) => Some(&mut class.fields),
            Owner::Method(_) => Some(&mut class.methods),
        }
    }

    fn member(&mut self, owner: Owner) -> Option<()> {
        self.owner = owner;
        let start = self.cursor.position();
        self.members()?.push(Member {
            start,
            ..Member::default()
        });
        let access = self.u2(What::Access)?;
        self.members()?.last_mut()?.access = access;
        let name = self.u2(What::Name)?;
        let name = self.current()?.pool.text(name);
        self.members()?.last_mut()?.name = name;
        let descriptor = self.u2(What::Descriptor)?;
        let descriptor = self.current()?.pool.text(descriptor);
        self.members()?.last_mut()?.descriptor = descriptor;
        self.attributes()
    }

    fn attributes(&mut self) -> Option<()> {
        for _ in 0..self.u2(What::AttributeCount)? {
            self.attribute()?;
        }
        Some(())
    }

    fn attribute(&mut self) -> Option<()> {
        let name = self.u2(What::Attribute)?;
        let length = self.u4(What::AttributeLength)? as usize;
        let is_code = self.current()?.pool.text(name) == Some(b"Code");
        let is_method = matches!(self.owner, Owner::Method(_));
        let start = self.cursor.position();
        let mut after = self.cursor;
        if length > 0 {
            self.note(start, What::AttributeContent, None);
        }
        if is_code && is_method {
            // Inside, positions are the bundle's but the end is the attribute's.
            self.cursor = self.cursor.part(length);
            let mut code = Code::default();
            self.code(&mut code);
            let member = self.members()?.last_mut()?;
            member.code = member.code.take().or(Some(code));
        }
        let fits = after.take(length).is_some();
        self.cursor = after;
        Some(()).filter(|_| fits)
    }

    fn code(&mut self, code: &mut Code<'a>) -> Option<()> {
        code.max_stack = self.u2(What::MaxStack)?;
        code.max_locals = self.u2(What::MaxLocals)?;
        let length = self.u4(What::CodeLength)?;
        let start = self.cursor.position();
        self.note(start, What::CodeBytes, None);
        code.bytes = self.cursor.take(length as usize)?;
        for _ in 0..self.u2(What::TableCount)? {
            code.table.push(TableEntry {
                start: self.u2(What::TableNumber)?,
                end: self.u2(What::TableNumber)?,
                handler: self.u2(What::TableNumber)?,
                catch_type: self.u2(What::TableNumber)?,
            });
        }
        for _ in 0..self.u2(What::AttributeCount)? {
            let name = self.u2(What::Attribute)?;
            let length = self.u4(What::AttributeLength)? as usize;
            let start = self.cursor.position();
            if length > 0 {
                self.note(start, What::AttributeContent, None);
            }
            let content = self.cursor.take(length)?;
            match self.current()?.pool.text(name) {
                Some(b"LineNumberTable") => code.lines = lines(content).unwrap_or_default(),
                Some(b"StackMapTable") => code.frame_table = Some(content),
                _ => {}
            }
        }
        Some(())
    }
}

fn lines(content: &[u8]) -> Option<Vec<(u32, u32)>> {
    let mut cursor = Cursor::new(content);
    let count = cursor.u2()?;
    (0..count)
        .map(|_| Some((cursor.u2()?, cursor.u2()?)))
        .collect()
}

#[cfg(test)]
mod tests {
    use super::*;

    #[test]
    fn nothing_is_read_from_nothing() {
        assert!(read(&[]).classes.is_empty());
        assert_eq!(read(&[0xca, 0xfe]).classes.len(), 1);
    }

    #[test]
    fn a_large_count_without_bytes_ends_the_reading() {
        let bytes = [0xca, 0xfe, 0xba, 0xbe, 0, 0, 0, 52, 0xff, 0xff, 5];
        let outline = read(&bytes);
        assert_eq!(
            outline.items.last().map(|item| item.what),
            Some(What::PoolEntry(1))
        );
    }
}
