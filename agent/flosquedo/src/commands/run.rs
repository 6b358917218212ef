//! `run`: a run by indices, answered in numbers.

use super::{argument_words, help, index_word, misuse, Reply, REFUSED};
use crate::source::{read_file, too_large, Trouble};
use crate::LARGEST_HEAP;
use flosquedo_proved::{End, Entry, Machine, Refusal, Run};
use std::ffi::OsString;
use std::path::Path;

pub fn run(words: &[OsString]) -> Reply {
    match words {
        [file, class, method, budget, heap, arguments @ ..] => {
            run_words(file, [class, method, budget, heap], arguments).unwrap_or_else(Reply::from)
        }
        _ => misuse(
            "run needs a file, a class, a method, a budget and a heap size",
            help::RUN,
        ),
    }
}

fn run_words(
    file: &OsString,
    numbers: [&OsString; 4],
    arguments: &[OsString],
) -> Result<Reply, Trouble> {
    let [class, method, budget, heap] = numbers;
    let class = index_word(class, "a class index")?;
    let method = index_word(method, "a method index")?;
    let budget = index_word(budget, "a budget")?;
    let cells = index_word(heap, "a heap size")? as usize;
    let arguments = argument_words(arguments)?;
    let path = Path::new(file);
    let bundle = read_file(path)?;
    // One cell too many is refused like any larger number, and costs no memory.
    let mut heap = vec![0; cells.min(LARGEST_HEAP + 1)];
    let entry = Entry {
        class,
        method,
        arguments: &arguments,
        budget,
    };
    let outcome = Machine::new().run(&bundle, &mut heap, entry);
    let mut reply = Reply::output(line(&outcome, &heap));
    if outcome.is_err() {
        reply.raise(REFUSED);
    }
    if let Some(trouble) = too_large(path, &bundle) {
        reply.complain(&trouble);
    }
    Ok(reply)
}

fn line(outcome: &Result<Run, Refusal>, heap: &[u32]) -> String {
    match outcome {
        Err(Refusal::Bundle(v)) => {
            format!(
                "refused\t21\t{}\t{}\t{}\t{}\n",
                v.number, v.class, v.method, v.place
            )
        }
        Err(refusal) => format!("refused\t{}\n", refusal.number()),
        Ok(Run {
            end,
            value,
            steps,
            cells,
        }) => {
            let used = heap.get(..*cells as usize).unwrap_or(heap);
            let hash = fnv1a(used);
            let end = end_word(*end);
            format!(
                "{}\t{}\t{}\t{}\t{:016x}\n",
                end, *value as i32, steps, cells, hash
            )
        }
    }
}

fn end_word(end: End) -> &'static str {
    match end {
        End::Returned => "returned",
        End::Uncaught => "uncaught",
        End::OutOfSteps => "steps",
        End::HeapFull => "heap",
        End::DepthFull => "depth",
        End::Stuck => "stuck",
    }
}

/// FNV-1a, 64 bits, over the cells as 4 little-endian bytes each.
fn fnv1a(cells: &[u32]) -> u64 {
    let bytes = cells.iter().flat_map(|cell| cell.to_le_bytes());
    bytes.fold(0xcbf2_9ce4_8422_2325, |hash: u64, byte| {
        (hash ^ u64::from(byte)).wrapping_mul(0x0000_0100_0000_01b3)
    })
}
