//! The commands: each takes its words and gives what to print and the exit status.

mod bundle;
mod check;
mod help;
mod job;
mod run;
mod verify;

use crate::source::Trouble;
use std::ffi::OsString;

/// What the program prints and ends with.
#[derive(Clone, Debug, Default, PartialEq, Eq)]
pub struct Reply {
    pub output: String,
    pub errors: String,
    /// 0 for yes, 1 for a refusal, 2 for a file or word that cannot be used.
    pub status: u8,
}

/// Exit statuses.
pub const REFUSED: u8 = 1;
pub const UNUSABLE: u8 = 2;

impl Reply {
    pub fn output(text: impl Into<String>) -> Reply {
        Reply {
            output: text.into(),
            ..Reply::default()
        }
    }

    /// Keeps the worst status.
    pub fn raise(&mut self, status: u8) {
        self.status = self.status.max(status);
    }

    pub fn complain(&mut self, trouble: &Trouble) {
        self.errors.push_str(&format!("flosquedo: {}\n", trouble.0));
        self.raise(UNUSABLE);
    }
}

impl From<Trouble> for Reply {
    fn from(trouble: Trouble) -> Reply {
        let mut reply = Reply::default();
        reply.complain(&trouble);
        reply
    }
}

/// Everything the program does, without touching its outputs.
pub fn answer(words: &[OsString]) -> Reply {
    let (name, rest) = match words.split_first() {
        Some((first, rest)) => (first.to_string_lossy(), rest),
        None => return misuse("no command given", help::PROGRAM),
    };
    let (command, help): (fn(&[OsString]) -> Reply, &str) = match name.as_ref() {
        "--help" | "-h" | "help" => return Reply::output(help::PROGRAM),
        "verify" => (verify::verify, help::VERIFY),
        "run" => (run::run, help::RUN),
        "check" => (check::check, help::CHECK),
        "bundle" => (bundle::bundle, help::BUNDLE),
        "job" => (job::job, help::JOB),
        _ => return misuse(&format!("there is no command '{}'", name), help::PROGRAM),
    };
    let first = rest.first().and_then(|word| word.to_str());
    if matches!(first, Some("--help" | "-h")) {
        return Reply::output(help);
    }
    command(rest)
}

/// A complaint with the text that helps.
fn misuse(message: &str, help: &str) -> Reply {
    Reply {
        errors: format!("flosquedo: {}\n\n{}", message, help),
        status: UNUSABLE,
        ..Reply::default()
    }
}

/// A word that must be a number up to 4294967295.
fn index_word(word: &OsString, what: &str) -> Result<u32, Trouble> {
    parse_word(word, what, "a number from 0 to 4294967295")
}

/// A word that must be a Java int.
fn int_word(word: &OsString) -> Result<i32, Trouble> {
    parse_word(
        word,
        "an argument",
        "an int, from -2147483648 to 2147483647",
    )
}

fn parse_word<T: std::str::FromStr>(
    word: &OsString,
    what: &str,
    wanted: &str,
) -> Result<T, Trouble> {
    let parsed = word.to_str().and_then(|text| text.parse().ok());
    parsed.ok_or_else(|| {
        Trouble(format!(
            "'{}' cannot be {}: {} is needed",
            word.to_string_lossy(),
            what,
            wanted
        ))
    })
}

fn argument_words(words: &[OsString]) -> Result<Vec<u32>, Trouble> {
    words
        .iter()
        .map(|word| int_word(word).map(|value| value as u32))
        .collect()
}
