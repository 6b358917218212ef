//! The constant pool.

use crate::bytes::{number, Cursor};
use crate::limits;
use crate::names::class_or_array;
use crate::verdict::{refusal, Fault};

#[derive(Clone, Copy, Debug)]
pub(crate) enum Entry<'a> {
    /// Index 0.
    Nothing,
    Utf8(&'a [u8]),
    Integer(i32),
    Class {
        name: u32,
    },
    Fieldref {
        class: u32,
        member: u32,
    },
    Methodref {
        class: u32,
        member: u32,
    },
    NameAndType {
        name: u32,
        descriptor: u32,
    },
}

/// A member as a Fieldref or Methodref names it.
#[derive(Clone, Copy, Debug)]
pub(crate) struct MemberName<'a> {
    pub class: &'a [u8],
    pub name: &'a [u8],
    pub descriptor: &'a [u8],
}

pub(crate) struct Pool<'a> {
    entries: Vec<Entry<'a>>,
}

impl<'a> Pool<'a> {
    pub fn read(cursor: &mut Cursor<'a>) -> Result<Pool<'a>, Fault> {
        let place = cursor.position();
        let count = cursor.u2_at_most(limits::POOL_COUNT)?;
        if count == 0 {
            return Err(Fault::new(refusal::POOL, place));
        }
        let mut tags = vec![place];
        let mut entries = vec![Entry::Nothing];
        for _ in 1..count {
            tags.push(cursor.position());
            entries.push(read_entry(cursor)?);
        }
        let pool = Pool { entries };
        for (entry, &tag) in pool.entries.iter().zip(&tags) {
            pool.check_entry(entry)
                .map_err(|number| Fault::new(number, tag))?;
        }
        Ok(pool)
    }

    pub fn entries(&self) -> &[Entry<'a>] {
        &self.entries
    }

    pub fn entry(&self, index: u32) -> Entry<'a> {
        let entry = self.entries.get(index as usize);
        entry.copied().unwrap_or(Entry::Nothing)
    }

    pub fn utf8(&self, index: u32) -> Option<&'a [u8]> {
        match self.entry(index) {
            Entry::Utf8(text) => Some(text),
            _ => None,
        }
    }

    pub fn class_name(&self, index: u32) -> Option<&'a [u8]> {
        match self.entry(index) {
            Entry::Class { name } => self.utf8(name),
            _ => None,
        }
    }

    /// The texts behind the two indices of a Fieldref or Methodref.
    pub fn member_name(&self, class: u32, member: u32) -> Option<MemberName<'a>> {
        match self.entry(member) {
            Entry::NameAndType { name, descriptor } => Some(MemberName {
                class: self.class_name(class)?,
                name: self.utf8(name)?,
                descriptor: self.utf8(descriptor)?,
            }),
            _ => None,
        }
    }

    /// Every index leads to an entry of its kind; a Class names a class or array.
    fn check_entry(&self, entry: &Entry<'a>) -> Result<(), u32> {
        let sound = match *entry {
            Entry::Nothing | Entry::Utf8(_) | Entry::Integer(_) => true,
            Entry::Class { name } => match self.utf8(name) {
                Some(text) if class_or_array(text).is_none() => return Err(refusal::NAME),
                text => text.is_some(),
            },
            Entry::Fieldref { class, member } | Entry::Methodref { class, member } => {
                self.member_indices_sound(class, member)
            }
            Entry::NameAndType { name, descriptor } => {
                self.utf8(name).is_some() && self.utf8(descriptor).is_some()
            }
        };
        if sound {
            Ok(())
        } else {
            Err(refusal::POOL)
        }
    }

    fn member_indices_sound(&self, class: u32, member: u32) -> bool {
        matches!(self.entry(class), Entry::Class { .. })
            && matches!(self.entry(member), Entry::NameAndType { .. })
    }
}

/// An entry is one item: cut anywhere, it is cut at its tag.
fn read_entry<'a>(cursor: &mut Cursor<'a>) -> Result<Entry<'a>, Fault> {
    let place = cursor.position();
    let cut = |_| Fault::new(refusal::CUT_SHORT, place);
    let entry = match cursor.u1()? {
        1 => {
            let length = cursor.u2().map_err(cut)? as usize;
            let text = cursor.take(length).map_err(cut)?;
            check_text(text).map_err(|number| Fault::new(number, place))?;
            Entry::Utf8(text)
        }
        3 => Entry::Integer(cursor.u4().map_err(cut)? as i32),
        7 => Entry::Class {
            name: cursor.u2().map_err(cut)?,
        },
        tag => {
            let pair = known_pair(tag).ok_or_else(|| Fault::new(refusal::POOL, place))?;
            let both = cursor.take(4).map_err(cut)?;
            let (first, second) = both.split_at(2);
            pair(number(first), number(second))
        }
    };
    Ok(entry)
}

fn check_text(text: &[u8]) -> Result<(), u32> {
    if text.len() > limits::TEXT_BYTES {
        Err(refusal::LARGEST_VALUE)
    } else if !text.iter().all(|byte| (0x01..=0x7f).contains(byte)) {
        Err(refusal::POOL)
    } else {
        Ok(())
    }
}

/// The entries that are two indices.
fn known_pair<'a>(tag: u8) -> Option<fn(u32, u32) -> Entry<'a>> {
    match tag {
        9 => Some(|class, member| Entry::Fieldref { class, member }),
        10 => Some(|class, member| Entry::Methodref { class, member }),
        12 => Some(|name, descriptor| Entry::NameAndType { name, descriptor }),
        _ => None,
    }
}
