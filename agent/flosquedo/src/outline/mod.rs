//! A tolerant reader of class files, for names only.
//!
//! It judges nothing: it reads past what the verifier refuses as long as the layout
//! can be followed, and stops without complaint where it cannot.

mod cursor;
mod pool;
mod read;

pub use cursor::Cursor;
pub use pool::{shown_text, Constant, Pool};
pub use read::read;

/// What could be read of a bundle.
#[derive(Default)]
pub struct Outline<'a> {
    pub classes: Vec<Class<'a>>,
    /// In the order of their bytes.
    pub items: Vec<Item>,
}

#[derive(Default)]
pub struct Class<'a> {
    pub start: usize,
    pub pool: Pool<'a>,
    pub name: Option<&'a [u8]>,
    pub parent: Option<&'a [u8]>,
    pub fields: Vec<Member<'a>>,
    pub methods: Vec<Member<'a>>,
}

/// A field or method; a part that could not be read is missing.
#[derive(Default)]
pub struct Member<'a> {
    pub start: usize,
    pub access: u32,
    pub name: Option<&'a [u8]>,
    pub descriptor: Option<&'a [u8]>,
    pub code: Option<Code<'a>>,
}

#[derive(Default)]
pub struct Code<'a> {
    pub max_stack: u32,
    pub max_locals: u32,
    pub bytes: &'a [u8],
    pub table: Vec<TableEntry>,
    /// Code offset and source line.
    pub lines: Vec<(u32, u32)>,
    pub frame_table: Option<&'a [u8]>,
}

#[derive(Clone, Copy)]
pub struct TableEntry {
    pub start: u32,
    pub end: u32,
    pub handler: u32,
    pub catch_type: u32,
}

/// A number or part of the layout, so that a byte offset can be put into words.
#[derive(Clone, Copy, Debug, PartialEq, Eq)]
pub struct Item {
    pub start: usize,
    pub class: usize,
    pub owner: Owner,
    pub what: What,
    /// None where the bytes end.
    pub value: Option<u32>,
}

/// What an item belongs to.
#[derive(Clone, Copy, Debug, PartialEq, Eq)]
pub enum Owner {
    Class,
    Field(usize),
    Method(usize),
}

#[derive(Clone, Copy, Debug, PartialEq, Eq)]
pub enum What {
    Magic,
    MinorVersion,
    MajorVersion,
    PoolCount,
    /// With its index; the value is its tag.
    PoolEntry(u32),
    Access,
    ThisClass,
    SuperClass,
    InterfaceCount,
    FieldCount,
    MethodCount,
    Name,
    Descriptor,
    AttributeCount,
    /// The value is its name's index.
    Attribute,
    AttributeLength,
    AttributeContent,
    MaxStack,
    MaxLocals,
    CodeLength,
    CodeBytes,
    TableCount,
    TableNumber,
}

impl<'a> Outline<'a> {
    pub fn class(&self, index: u32) -> Option<&Class<'a>> {
        self.classes.get(index as usize)
    }

    pub fn method(&self, class: u32, method: u32) -> Option<&Member<'a>> {
        self.class(class)?.methods.get(method as usize)
    }

    /// The item that begins at an offset, or else the last one before it.
    pub fn item_at(&self, place: usize) -> Option<&Item> {
        self.items.iter().rev().find(|item| item.start <= place)
    }

    pub fn owner(&self, item: &Item) -> Option<&Member<'a>> {
        let class = self.classes.get(item.class)?;
        match item.owner {
            Owner::Class => None,
            Owner::Field(index) => class.fields.get(index),
            Owner::Method(index) => class.methods.get(index),
        }
    }

    /// The bundle's class of a name.
    pub fn class_named(&self, name: &[u8]) -> Option<&Class<'a>> {
        self.classes.iter().find(|class| class.name == Some(name))
    }
}

impl Member<'_> {
    pub fn is_static(&self) -> bool {
        self.access & 0x0008 != 0
    }

    /// Name and descriptor, as far as they could be read.
    pub fn shown(&self) -> String {
        let name = self
            .name
            .map_or("(unreadable name)".to_string(), shown_text);
        let descriptor = self.descriptor.map_or(String::new(), shown_text);
        match descriptor.starts_with('(') {
            true => format!("{}{}", name, descriptor),
            false => format!("{} {}", name, descriptor).trim_end().to_string(),
        }
    }
}

impl Class<'_> {
    pub fn shown(&self) -> Option<String> {
        self.name.map(shown_text)
    }
}
