//! Faults of the bytes: verdicts 1 to 7.

use crate::explain::place::item_label;
use crate::explain::values::{flags, java_release, largest};
use crate::explain::{Case, Finding};
use crate::outline::{shown_text, Constant, Item, Owner, What};

const DAMAGED: &str = "a damaged file";
const FOREIGN_TYPE: &str = "boolean, byte, char, short, long, float or double; write int";
const FOREIGN_ARRAY: &str = "an array of another primitive type than int, or one over 7 deep";

pub fn size(case: &Case<'_, '_>) -> Finding {
    match case.source.bytes.is_empty() {
        true => Finding::wrong("the bundle is empty"),
        false => Finding::wrong("the bundle is over 65,536 bytes"),
    }
}

pub fn reading(case: &Case<'_, '_>, item: &Item) -> Option<Finding> {
    match case.verdict.number {
        2 => Some(Finding::wrong(format!(
            "the bytes end inside {}",
            item_label(case, item)
        ))),
        3 => version(item),
        4 => too_large(case, item),
        5 => pool_fault(case, item),
        6 => access(case, item),
        _ => malformed(case, item),
    }
}

fn version(item: &Item) -> Option<Finding> {
    match item.what {
        What::Magic => Some(
            Finding::wrong("what begins here is not a class file")
                .because("the file is no bundle, or bytes stand between or after its classes"),
        ),
        What::MajorVersion => {
            let major = item.value?;
            let release =
                java_release(major).map_or(String::new(), |release| format!(" ({})", release));
            Some(Finding::wrong(format!(
                "compiled for class file version {}{}",
                major, release
            )))
        }
        _ => None,
    }
}

fn too_large(case: &Case<'_, '_>, item: &Item) -> Option<Finding> {
    let finding = match (item.what, item.value) {
        (What::CodeLength, Some(0)) => Finding::wrong("the code is empty"),
        (What::CodeLength, _) => Finding::wrong("over 4,096 bytes of code in one method")
            .because("a long method: split it in two"),
        (What::Magic, _) => {
            Finding::wrong("a 17th class").because("too many classes in one bundle")
        }
        (What::PoolEntry(_), _) => {
            Finding::wrong("a text of more than 255 bytes").because("a very long name")
        }
        (What::Descriptor, _) => Finding::wrong("more than 16 parameters, the receiver counted")
            .because("too many parameters"),
        (what, _) => Finding::wrong(format!(
            "{}, where at most {} is allowed",
            item_label(case, item),
            largest(what)?
        )),
    };
    Some(finding)
}

fn pool_fault(case: &Case<'_, '_>, item: &Item) -> Option<Finding> {
    let index = match item.what {
        What::PoolEntry(index) => index,
        What::PoolCount => return Some(Finding::wrong("the pool count is 0")),
        _ => {
            return Some(
                Finding::wrong("an index that names the wrong kind of pool entry")
                    .because("a damaged file"),
            )
        }
    };
    let pool = &case.outline.classes.get(item.class)?.pool;
    let (what, cause) = match pool.get(index) {
        Constant::QuotedText(_) => (
            pool.shown(index),
            "a string in the source; jobs have none: use an int code instead",
        ),
        Constant::InterfaceMethod(..) => (
            pool.shown(index),
            "a call through an interface; use a class with a method to override",
        ),
        Constant::Foreign(kind) => (kind.to_string(), foreign_cause(item.value?)),
        Constant::Text(_) => (
            "a text that is not plain ASCII".to_string(),
            "a name or string with a letter beyond ASCII",
        ),
        Constant::Nothing => (
            format!("tag {}, which is no kind of pool entry", item.value?),
            "a damaged file",
        ),
        _ => {
            return Some(
                Finding::wrong("a pool entry whose index names the wrong kind of entry")
                    .because("a damaged file"),
            )
        }
    };
    Some(Finding::wrong(format!("the constant pool holds {}", what)).because(cause))
}

fn foreign_cause(tag: u32) -> &'static str {
    match tag {
        4..=6 => "a long, float or double number in the source; jobs count in int",
        _ => "a lambda, a method reference or a string concatenation in the source",
    }
}

fn access(case: &Case<'_, '_>, item: &Item) -> Option<Finding> {
    let value = item.value?;
    if item.what == What::InterfaceCount {
        let text = format!("the class implements {} interface(s)", value);
        return Some(
            Finding::wrong(text).because("`implements` in the source; jobs have no interfaces"),
        );
    }
    let kind = match item.owner {
        Owner::Class => "a class",
        Owner::Field(_) => "a field",
        Owner::Method(_) if is_constructor(case, item) => "a constructor",
        Owner::Method(_) => "a method",
    };
    let text = format!("{} with the access {}", kind, flags(value, item.owner));
    Some(Finding::wrong(text).because(access_cause(case, item, value)))
}

fn access_cause(case: &Case<'_, '_>, item: &Item, access: u32) -> &'static str {
    let name = case.outline.owner(item).and_then(|member| member.name);
    let name = name.unwrap_or_default();
    match item.owner {
        Owner::Class => "`final`, `abstract`, `interface` or `enum` in the source",
        Owner::Field(_) if name.starts_with(b"this$") => {
            "an inner class that is not static: make it `public static` and pass the outer object"
        }
        Owner::Field(_) if name == b"$assertionsDisabled" => "`assert` in the source; leave it out",
        Owner::Field(_) => {
            "`private`, `protected`, `static`, `final` or no word: write just `public`"
        }
        Owner::Method(_) if is_constructor(case, item) => {
            "a class or constructor that is not `public`: make both public"
        }
        Owner::Method(_) if access & 0x1000 != 0 => {
            "made by the compiler: an override with a narrower result, or use of a private member"
        }
        Owner::Method(_) if access & 0x0080 != 0 => "`int... x`; write `int[] x`",
        Owner::Method(_) => "write just `public` or `public static` before the method",
    }
}

fn is_constructor(case: &Case<'_, '_>, item: &Item) -> bool {
    case.outline
        .owner(item)
        .map_or(false, |member| member.name == Some(b"<init>"))
}

fn malformed(case: &Case<'_, '_>, item: &Item) -> Option<Finding> {
    let pool = &case.outline.classes.get(item.class)?.pool;
    let text = |index| {
        let text = pool.text(index).or_else(|| pool.class_name(index));
        text.map(shown_text)
    };
    let value = item.value?;
    let (wrong, cause) = match item.what {
        What::Attribute => (
            "the parts of Code do not fill its length".to_string(),
            DAMAGED,
        ),
        What::Name if pool.text(value) == Some(b"<clinit>") => (
            "a static initialiser".to_string(),
            "a static field with a value, or an `assert`",
        ),
        What::Name => (
            format!("the name \"{}\" is malformed", text(value)?),
            "a tool that makes up names",
        ),
        What::Descriptor => (
            descriptor_words(is_constructor(case, item), text(value)?),
            FOREIGN_TYPE,
        ),
        What::ThisClass | What::SuperClass => {
            (format!("\"{}\" is no class name", text(value)?), DAMAGED)
        }
        What::PoolEntry(index) => (
            format!(
                "\"{}\" names no class or array that jobs have",
                text(index)?
            ),
            FOREIGN_ARRAY,
        ),
        _ => return None,
    };
    Some(Finding::wrong(wrong).because(cause))
}

fn descriptor_words(of_constructor: bool, text: String) -> String {
    match of_constructor {
        true => format!("{} is no descriptor of a job's constructor", text),
        false => format!(
            "the descriptor {} is malformed or has a type jobs do not have",
            text
        ),
    }
}
