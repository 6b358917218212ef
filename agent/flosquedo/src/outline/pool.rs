//! The constant pool, with the kinds that are refused too, so that names after them stay readable.

use super::cursor::Cursor;

/// Longer texts are cut when they are shown.
const SHOWN_CHARACTERS: usize = 80;

#[derive(Clone, Copy, Debug, PartialEq, Eq)]
pub enum Constant<'a> {
    /// Index 0, or the second half of a long or double.
    Nothing,
    Text(&'a [u8]),
    Integer(i32),
    Class(u32),
    /// The text's index.
    QuotedText(u32),
    Field(u32, u32),
    Method(u32, u32),
    InterfaceMethod(u32, u32),
    NameAndType(u32, u32),
    /// A kind that jobs do not have.
    Foreign(&'static str),
}

#[derive(Default)]
pub struct Pool<'a> {
    pub constants: Vec<Constant<'a>>,
}

impl<'a> Pool<'a> {
    pub fn get(&self, index: u32) -> Constant<'a> {
        let constant = self.constants.get(index as usize);
        constant.copied().unwrap_or(Constant::Nothing)
    }

    pub fn text(&self, index: u32) -> Option<&'a [u8]> {
        match self.get(index) {
            Constant::Text(text) => Some(text),
            _ => None,
        }
    }

    pub fn class_name(&self, index: u32) -> Option<&'a [u8]> {
        match self.get(index) {
            Constant::Class(name) => self.text(name),
            _ => None,
        }
    }

    /// Class, name and descriptor of a field or method entry.
    pub fn member(&self, index: u32) -> Option<(&'a [u8], &'a [u8], &'a [u8])> {
        let (class, member) = match self.get(index) {
            Constant::Field(class, member)
            | Constant::Method(class, member)
            | Constant::InterfaceMethod(class, member) => (class, member),
            _ => return None,
        };
        match self.get(member) {
            Constant::NameAndType(name, descriptor) => Some((
                self.class_name(class)?,
                self.text(name)?,
                self.text(descriptor)?,
            )),
            _ => None,
        }
    }

    /// An entry in words.
    pub fn shown(&self, index: u32) -> String {
        let unreadable = || format!("pool entry {}", index);
        match self.get(index) {
            Constant::Nothing => format!("pool entry {}, which does not exist", index),
            Constant::Text(text) => format!("the text \"{}\"", shown_text(text)),
            Constant::Integer(value) => format!("the number {}", value),
            Constant::Class(_) => self
                .class_name(index)
                .map_or_else(unreadable, |name| format!("class {}", shown_text(name))),
            Constant::QuotedText(text) => self.text(text).map_or_else(unreadable, |text| {
                format!("the string \"{}\"", shown_text(text))
            }),
            Constant::Field(..) => self
                .shown_member("field", " ", index)
                .unwrap_or_else(unreadable),
            Constant::Method(..) => self
                .shown_member("method", "", index)
                .unwrap_or_else(unreadable),
            Constant::InterfaceMethod(..) => self
                .shown_member("interface method", "", index)
                .unwrap_or_else(unreadable),
            Constant::NameAndType(name, descriptor) => self.shown_pair(name, descriptor),
            Constant::Foreign(kind) => kind.to_string(),
        }
    }

    fn shown_member(&self, kind: &str, gap: &str, index: u32) -> Option<String> {
        let (class, name, descriptor) = self.member(index)?;
        let (class, name) = (shown_text(class), shown_text(name));
        Some(format!(
            "{} {}.{}{}{}",
            kind,
            class,
            name,
            gap,
            shown_text(descriptor)
        ))
    }

    fn shown_pair(&self, name: u32, descriptor: u32) -> String {
        let part = |index| self.text(index).map_or("?".to_string(), shown_text);
        format!(
            "the name {} with descriptor {}",
            part(name),
            part(descriptor)
        )
    }
}

/// One entry after its tag, or None if it is cut short or of no known kind.
pub fn read_constant<'a>(tag: u32, cursor: &mut Cursor<'a>) -> Option<Constant<'a>> {
    let constant = match tag {
        1 => {
            let length = cursor.u2()? as usize;
            Constant::Text(cursor.take(length)?)
        }
        3 => Constant::Integer(cursor.u4()? as i32),
        7 => Constant::Class(cursor.u2()?),
        8 => Constant::QuotedText(cursor.u2()?),
        9 => Constant::Field(cursor.u2()?, cursor.u2()?),
        10 => Constant::Method(cursor.u2()?, cursor.u2()?),
        11 => Constant::InterfaceMethod(cursor.u2()?, cursor.u2()?),
        12 => Constant::NameAndType(cursor.u2()?, cursor.u2()?),
        _ => {
            let (kind, length) = foreign_kind(tag)?;
            cursor.take(length)?;
            Constant::Foreign(kind)
        }
    };
    Some(constant)
}

/// Name and length after the tag of the kinds whose content says nothing to people.
fn foreign_kind(tag: u32) -> Option<(&'static str, usize)> {
    match tag {
        4 => Some(("a float number", 4)),
        5 => Some(("a long number", 8)),
        6 => Some(("a double number", 8)),
        15 => Some(("a method handle", 3)),
        16 => Some(("a method type", 2)),
        17 => Some(("a dynamic constant", 4)),
        18 => Some(("a lambda or string concatenation (invokedynamic)", 4)),
        19 => Some(("a module", 2)),
        20 => Some(("a package", 2)),
        _ => None,
    }
}

/// A text as it can be printed: no control characters, and not too long.
pub fn shown_text(text: &[u8]) -> String {
    let lossy = String::from_utf8_lossy(text);
    let printable = lossy.chars().map(|c| if c.is_control() { '?' } else { c });
    let mut shown: String = printable.take(SHOWN_CHARACTERS).collect();
    if lossy.chars().nth(SHOWN_CHARACTERS).is_some() {
        shown.push_str("...");
    }
    shown
}
