//! A run: refusals, then the plain machine on the entry.

use crate::classfile::read_bundle;
use crate::heap::Heap;
use crate::limits;
use crate::link::{link, Method, Program};
use crate::machine::{Ended, Machine};
use crate::prepared::Prepared;
use crate::shape::shape;
use crate::types::ValueType;
use crate::verdict::{refusal, Verdict};

/// The answer to a run: a refusal (20 to 23) or an end (1 to 6), the other being 0.
#[derive(Clone, Copy, Debug, PartialEq, Eq)]
pub struct Outcome {
    pub refusal: u32,
    /// Zeros unless the refusal is 21.
    pub verdict: Verdict,
    /// See [`End`](crate::End).
    pub end: u32,
    /// Returned value or uncaught class, else 0.
    pub value: u32,
    /// Steps.
    pub count: u32,
    /// Heap cells.
    pub used: u32,
}

impl Outcome {
    fn refused(number: u32, verdict: Verdict) -> Outcome {
        Outcome {
            refusal: number,
            verdict,
            end: 0,
            value: 0,
            count: 0,
            used: 0,
        }
    }

    fn ended(ended: Ended, used: u32) -> Outcome {
        Outcome {
            refusal: 0,
            verdict: Verdict::ZEROS,
            end: ended.end as u32,
            value: ended.value,
            count: ended.count,
            used,
        }
    }
}

/// Runs a static method of int parameters, named by class and method index.
pub fn run(
    bundle: &[u8],
    heap: &mut [u32],
    class: u32,
    method: u32,
    arguments: &[u32],
    budget: u32,
) -> Outcome {
    if heap.len() > limits::HEAP_CELLS || budget > limits::BUDGET {
        return Outcome::refused(refusal::LENT, Verdict::ZEROS);
    }
    let entry = Entry {
        class,
        method,
        arguments,
    };
    run_entry(bundle, heap, entry, budget).unwrap_or_else(|refused| refused)
}

/// Class index, method index and parameter count of every method that can be run;
/// none if the bundle has a verdict 1 to 13.
pub fn entries(bundle: &[u8]) -> Vec<(u32, u32, u32)> {
    let program = match read_bundle(bundle).map(link) {
        Ok(Ok(program)) if shape(&program).is_ok() => program,
        _ => return Vec::new(),
    };
    let runnable = program
        .methods
        .iter()
        .filter(|method| takes_only_ints(method));
    let numbers = runnable.map(|method| {
        let parameters = method.signature.parameters.len() as u32;
        (method.class as u32, method.index as u32, parameters)
    });
    numbers.collect()
}

struct Entry<'e> {
    class: u32,
    method: u32,
    arguments: &'e [u32],
}

fn run_entry(
    bundle: &[u8],
    heap: &mut [u32],
    entry: Entry<'_>,
    budget: u32,
) -> Result<Outcome, Outcome> {
    let bad_bundle = |verdict| Outcome::refused(refusal::BUNDLE, verdict);
    let files = read_bundle(bundle).map_err(|fault| bad_bundle(Verdict::in_bundle(fault)))?;
    let program = link(files).map_err(bad_bundle)?;
    let shaped = shape(&program).map_err(bad_bundle)?;
    let bad_entry = |number| Outcome::refused(number, Verdict::ZEROS);
    let number = entry_method(&program, &entry).map_err(bad_entry)?;
    let prepared = Prepared::new(&program, &shaped);
    let first = prepared.methods.get(number);
    let first = first.ok_or_else(|| bad_entry(refusal::ENTRY))?;
    let mut machine = Machine::new(
        &prepared,
        &program.hierarchy,
        Heap::new(heap),
        first,
        entry.arguments,
    );
    let ended = machine.run(budget);
    Ok(Outcome::ended(ended, machine.heap.used()))
}

/// Position in the program's methods, or refusal 22 or 23.
fn entry_method(program: &Program<'_>, entry: &Entry<'_>) -> Result<usize, u32> {
    let class = program.classes.get(entry.class as usize);
    let class = class.ok_or(refusal::ENTRY)?;
    let index = entry.method as usize;
    if index >= class.method_count {
        return Err(refusal::ENTRY);
    }
    let number = class.first_method + index;
    let method = program.methods.get(number);
    let method = method
        .filter(|method| takes_only_ints(method))
        .ok_or(refusal::ENTRY)?;
    if method.signature.parameters.len() != entry.arguments.len() {
        return Err(refusal::ARGUMENTS);
    }
    Ok(number)
}

fn takes_only_ints(method: &Method<'_>) -> bool {
    let mut parameters = method.signature.parameters.iter();
    method.is_static && parameters.all(|parameter| *parameter == ValueType::Int)
}
