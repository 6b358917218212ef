//! `job`: a run by name, told in words.

use super::check::check_source;
use super::{argument_words, help, misuse, Reply, REFUSED};
use crate::explain::BUILT_IN_CLASSES;
use crate::outline::{self, shown_text, Member, Outline};
use crate::source::{load_one, Trouble};
use crate::{LARGEST_BUDGET, LARGEST_HEAP};
use flosquedo_proved::{End, Entry, Machine, Run};
use std::ffi::OsString;
use std::path::Path;

pub fn job(words: &[OsString]) -> Reply {
    match words {
        [path, name, arguments @ ..] => {
            run_named(Path::new(path), &name.to_string_lossy(), arguments)
                .unwrap_or_else(Reply::from)
        }
        _ => misuse(
            "job needs a path and the name of a static method, as in Class.method",
            help::JOB,
        ),
    }
}

fn run_named(path: &Path, name: &str, words: &[OsString]) -> Result<Reply, Trouble> {
    let arguments = argument_words(words)?;
    let source = load_one(path)?;
    let mut reply = Reply::default();
    check_source(&source, &mut reply);
    if reply.status != 0 {
        return Ok(reply);
    }
    let outline = outline::read(&source.bytes);
    let found = find_method(&outline, name, arguments.len())?;
    let mut heap = vec![0; LARGEST_HEAP];
    let entry = Entry {
        class: found.class,
        method: found.method,
        arguments: &arguments,
        budget: LARGEST_BUDGET,
    };
    let ended = Machine::new()
        .run(&source.bytes, &mut heap, entry)
        .map_err(|refusal| Trouble(format!("the run is refused with {}", refusal.number())))?;
    let call = format!("{}({})", name, shown_arguments(&arguments));
    let end = told(&ended, &found, &outline, &heap);
    let used = format!(
        "used {} of 1,000,000 steps and {} of 16,384 heap cells",
        ended.steps, ended.cells
    );
    reply
        .output
        .push_str(&format!("{} {}\n{}\n", call, end, used));
    if ended.end != End::Returned {
        reply.raise(REFUSED);
    }
    Ok(reply)
}

fn shown_arguments(arguments: &[u32]) -> String {
    let shown: Vec<String> = arguments
        .iter()
        .map(|value| (*value as i32).to_string())
        .collect();
    shown.join(", ")
}

/// A method that can be run.
struct Found<'o> {
    class: u32,
    method: u32,
    descriptor: &'o [u8],
}

/// The static method of a name whose parameters are so many ints.
fn find_method<'o>(
    outline: &'o Outline<'_>,
    name: &str,
    count: usize,
) -> Result<Found<'o>, Trouble> {
    let wanted = name.replace('/', ".");
    let (mut same_name, mut listed) = (false, Vec::new());
    for (class_index, class) in outline.classes.iter().enumerate() {
        for (method_index, method) in class.methods.iter().enumerate() {
            let (parameters, descriptor) = match int_parameters(method) {
                Some(found) => found,
                None => continue,
            };
            let full = format!("{}.{}", dotted(class.name), dotted(method.name));
            if full == wanted && parameters == count {
                return Ok(Found {
                    class: class_index as u32,
                    method: method_index as u32,
                    descriptor,
                });
            }
            same_name |= full == wanted;
            listed.push(format!("  {} with {} argument(s)", full, parameters));
        }
    }
    let problem = match same_name {
        true => format!("{} does not take {} argument(s)", name, count),
        false => format!(
            "there is no static method {} with only int parameters",
            name
        ),
    };
    let list = match listed.is_empty() {
        true => "nothing in this bundle can be run".to_string(),
        false => format!("what can be run:\n{}", listed.join("\n")),
    };
    Err(Trouble(format!("{}; {}", problem, list)))
}

/// How many parameters a static method has, if all are int; and its descriptor.
fn int_parameters<'m>(method: &'m Member<'_>) -> Option<(usize, &'m [u8])> {
    let descriptor = method.descriptor?;
    let end = descriptor.iter().position(|&byte| byte == b')')?;
    let parameters = descriptor.get(1..end)?;
    let runnable = method.is_static() && parameters.iter().all(|&byte| byte == b'I');
    Some((parameters.len(), descriptor)).filter(|_| runnable)
}

fn dotted(name: Option<&[u8]>) -> String {
    name.map_or("?".to_string(), |name| shown_text(name).replace('/', "."))
}

/// The end of a run in words.
fn told(ended: &Run, found: &Found<'_>, outline: &Outline<'_>, heap: &[u32]) -> String {
    match ended.end {
        End::Returned => told_value(ended.value, found.descriptor, outline, heap),
        End::Uncaught => format!(
            "threw {}, and nothing caught it",
            class_of_number(ended.value, outline)
        ),
        End::OutOfSteps => "did not end: its steps are used up".to_string(),
        End::HeapFull => "stopped: the next object does not fit the heap".to_string(),
        End::DepthFull => "stopped: more than 64 calls deep".to_string(),
        End::Stuck => "got stuck on an operand of the wrong kind".to_string(),
    }
}

fn told_value(value: u32, descriptor: &[u8], outline: &Outline<'_>, heap: &[u32]) -> String {
    let header = (value as usize).checked_sub(1);
    let cell = |offset: usize| {
        header
            .and_then(|header| heap.get(header + offset))
            .copied()
            .unwrap_or(0)
    };
    match descriptor.rsplit(|&byte| byte == b')').next() {
        Some(b"I") => format!("returned {}", value as i32),
        Some(b"V") => "returned (it has no result)".to_string(),
        _ if value == 0 => "returned null".to_string(),
        _ if cell(1) > 0 => format!("returned an array of length {}", cell(2)),
        _ => format!(
            "returned an object of class {}",
            class_of_number(cell(0), outline)
        ),
    }
}

/// Built-in classes come first, then the bundle's in order.
fn class_of_number(number: u32, outline: &Outline<'_>) -> String {
    let number = number as usize;
    match BUILT_IN_CLASSES.get(number) {
        Some(name) => name.replace('/', "."),
        None => dotted(
            outline
                .classes
                .get(number - BUILT_IN_CLASSES.len())
                .and_then(|class| class.name),
        ),
    }
}
