//! Verdicts in plain words: what is wrong, where, by which rule, and what usually causes it.

mod findings;
mod frames;
mod instruction;
mod linking;
mod place;
mod rules;
mod values;

pub use linking::{is_known, BUILT_IN_CLASSES};

use crate::outline::{self, Outline};
use crate::source::Source;
use flosquedo_proved::Verdict;

/// What a particular bundle shows about a refusal, beyond what its number says.
#[derive(Default)]
pub struct Finding {
    pub wrong: Option<String>,
    pub cause: Option<String>,
    /// The place is an exception table entry's start, not an instruction.
    pub in_table: bool,
}

impl Finding {
    fn wrong(text: impl Into<String>) -> Finding {
        Finding {
            wrong: Some(text.into()),
            ..Finding::default()
        }
    }

    fn because(self, cause: impl Into<String>) -> Finding {
        Finding {
            cause: Some(cause.into()),
            ..self
        }
    }

    fn in_table(self) -> Finding {
        Finding {
            in_table: true,
            ..self
        }
    }
}

/// A refused bundle and what could be read of it.
pub struct Case<'c, 'a> {
    pub source: &'c Source,
    pub outline: &'c Outline<'a>,
    pub verdict: Verdict,
}

impl Case<'_, '_> {
    fn place(&self) -> usize {
        self.verdict.place as usize
    }
}

/// The line that says that a bundle is accepted.
pub fn acceptance(source: &Source) -> String {
    let classes = outline::read(&source.bytes).classes.len();
    let plural = if classes == 1 { "class" } else { "classes" };
    format!(
        "{}: accepted ({} {}, {} bytes)\n",
        source.name,
        classes,
        plural,
        source.bytes.len()
    )
}

/// Several lines about a refusal.
pub fn refusal(source: &Source, verdict: Verdict) -> String {
    let outline = outline::read(&source.bytes);
    let case = Case {
        source,
        outline: &outline,
        verdict,
    };
    let words = rules::words(verdict.number);
    let finding = findings::find(&case).unwrap_or_default();
    let described = place::describe(&case, finding.in_table);
    let wrong = finding.wrong.unwrap_or_else(|| words.wrong.to_string());
    let cause = finding.cause.unwrap_or_else(|| words.cause.to_string());
    let Verdict {
        number,
        class,
        method,
        place,
    } = verdict;
    let numbers = format!(
        "verdict {}, class {}, method {}, place {}",
        number, class, method, place
    );
    let lines = [
        format!("{}: refused: {}", source.name, wrong),
        format!("  where:    {}", described),
        format!("  rule:     {}", words.rule),
        format!("  usually:  {}", cause),
        format!("  numbers:  {}", numbers),
    ];
    lines.join("\n") + "\n"
}
