//! Where a refusal points, in words.

use super::{instruction, linking, Case};
use crate::outline::{shown_text, Class, Code, Constant, Item, Owner, What};
use flosquedo_proved::UNNAMED;

pub fn describe(case: &Case<'_, '_>, in_table: bool) -> String {
    match case.verdict.number {
        1 => "the whole bundle".to_string(),
        2..=7 => describe_byte(case),
        8 | 9 => describe_linked(case),
        _ => describe_method(case, in_table),
    }
}

/// A byte offset in the file, and what stands there.
fn describe_byte(case: &Case<'_, '_>) -> String {
    let at = byte_words(case);
    let item = match item_of(case) {
        Some(item) => item,
        None => return at,
    };
    let label = item_label(case, item);
    let class = case.outline.classes.get(item.class);
    let owner = match (item.owner, case.outline.owner(item)) {
        (Owner::Field(_), Some(field)) => format!(" of field {}", field.shown()),
        (Owner::Method(_), Some(method)) => format!(" of method {}", method.shown()),
        _ => String::new(),
    };
    let inside = if item.start == case.place() {
        ""
    } else {
        "inside "
    };
    format!("{}{}: {}{}{}", at, in_class(class), inside, label, owner)
}

/// The byte's offset, with the file if the bundle came from several.
fn byte_words(case: &Case<'_, '_>) -> String {
    match case.source.file_offset(case.place()) {
        Some((file, offset)) => format!("byte {} of {}", offset, file),
        None => format!("byte {}", case.place()),
    }
}

/// What stands at the place; what is cut short is the outermost item there.
pub fn item_of<'c>(case: &Case<'c, '_>) -> Option<&'c Item> {
    let place = case.place();
    let outermost = case.outline.items.iter().find(|item| item.start == place);
    match case.verdict.number {
        2 if outermost.is_some() => outermost,
        _ => case.outline.item_at(place),
    }
}

fn in_class(class: Option<&Class<'_>>) -> String {
    match class.and_then(Class::shown) {
        Some(name) => format!(", in class {}", name),
        None => String::new(),
    }
}

/// How the value of an item is shown.
enum Shown {
    Not,
    Number,
    Hexadecimal(usize),
    PoolEntry,
}

fn label(what: What) -> (&'static str, Shown) {
    match what {
        What::Magic => ("the first four bytes", Shown::Hexadecimal(8)),
        What::MinorVersion => ("the minor version", Shown::Number),
        What::MajorVersion => ("the version", Shown::Number),
        What::PoolCount => ("the pool count", Shown::Number),
        What::PoolEntry(_) => ("a pool entry", Shown::Not),
        What::Access => ("the access flags", Shown::Hexadecimal(4)),
        What::ThisClass => ("the class's own name", Shown::PoolEntry),
        What::SuperClass => ("the super class", Shown::PoolEntry),
        What::InterfaceCount => ("the interface count", Shown::Number),
        What::FieldCount => ("the field count", Shown::Number),
        What::MethodCount => ("the method count", Shown::Number),
        What::Name => ("the name", Shown::PoolEntry),
        What::Descriptor => ("the descriptor", Shown::PoolEntry),
        What::AttributeCount => ("the attribute count", Shown::Number),
        What::Attribute => ("an attribute", Shown::PoolEntry),
        What::AttributeLength => ("an attribute's length", Shown::Number),
        What::AttributeContent => ("an attribute's content", Shown::Not),
        What::MaxStack => ("max_stack", Shown::Number),
        What::MaxLocals => ("max_locals", Shown::Number),
        What::CodeLength => ("the code length", Shown::Number),
        What::CodeBytes => ("the code", Shown::Not),
        What::TableCount => ("the exception table's count", Shown::Number),
        What::TableNumber => ("the exception table's number", Shown::Number),
    }
}

/// The name of an item and the value that stands there.
pub fn item_label(case: &Case<'_, '_>, item: &Item) -> String {
    let pool = case
        .outline
        .classes
        .get(item.class)
        .map(|class| &class.pool);
    if let What::PoolEntry(index) = item.what {
        let readable = pool.filter(|pool| pool.get(index) != Constant::Nothing);
        return match readable {
            Some(pool) => format!("pool entry {}, {}", index, pool.shown(index)),
            None => format!("pool entry {}", index),
        };
    }
    let (label, shown) = label(item.what);
    match (shown, item.value, pool) {
        (Shown::Number, Some(value), _) => format!("{} {}", label, value),
        (Shown::Hexadecimal(digits), Some(value), _) => {
            format!("{} {:0digits$x}", label, value, digits = digits)
        }
        (Shown::PoolEntry, Some(index), Some(pool)) => format!("{} ({})", label, pool.shown(index)),
        _ => label.to_string(),
    }
}

/// A class, or one of its members by its first byte.
fn describe_linked(case: &Case<'_, '_>) -> String {
    let at = byte_words(case);
    let class = match case.outline.class(case.verdict.class) {
        Some(class) => class,
        None => return at,
    };
    let name = class
        .shown()
        .unwrap_or_else(|| format!("number {}", case.verdict.class));
    match linking::member_at(class, case.place()) {
        Some((kind, member)) => format!("class {}, {} {} ({})", name, kind, member.shown(), at),
        None => format!("class {} ({})", name, at),
    }
}

/// A class, a method and what stands at a code offset or frame number.
fn describe_method(case: &Case<'_, '_>, in_table: bool) -> String {
    let verdict = case.verdict;
    if verdict.class == UNNAMED {
        return "the whole bundle".to_string();
    }
    let class = case.outline.class(verdict.class);
    let class_name = class
        .and_then(|class| class.name)
        .map_or(format!("number {}", verdict.class), shown_text);
    let method = case.outline.method(verdict.class, verdict.method);
    let method_name = method.map_or(format!("number {}", verdict.method), |method| {
        method.shown()
    });
    let mut text = format!("class {}, method {}", class_name, method_name);
    let code = method.and_then(|method| method.code.as_ref());
    match (verdict.number, class, code) {
        (10, _, _) => {}
        (14, _, _) => text.push_str(&format!(", frame {} of its StackMapTable", verdict.place)),
        _ if in_table => text.push_str(&format!(
            ", the exception table entry that starts at code offset {}",
            verdict.place
        )),
        (_, Some(class), Some(code)) => {
            text.push_str(&line_of(code, verdict.place));
            text.push_str(&format!(", code offset {}", verdict.place));
            let found = instruction::shown(code.bytes, verdict.place as usize, &class.pool);
            let found = found.unwrap_or_else(|| "the end of the code".to_string());
            text.push_str(&format!(": {}", found));
        }
        _ => text.push_str(&format!(", code offset {}", verdict.place)),
    }
    text
}

/// The source line, where the compiler has noted it.
fn line_of(code: &Code<'_>, offset: u32) -> String {
    let before = code.lines.iter().filter(|(start, _)| *start <= offset);
    match before.max_by_key(|(start, _)| *start) {
        Some((_, line)) => format!(", source line {}", line),
        None => String::new(),
    }
}
