//! `check`: verdicts in words.

use super::{help, misuse, Reply, REFUSED};
use crate::explain;
use crate::source::{load, Source};
use flosquedo_proved::Verifier;
use std::ffi::OsString;
use std::path::PathBuf;

pub fn check(words: &[OsString]) -> Reply {
    if words.is_empty() {
        return misuse("check needs at least one path", help::CHECK);
    }
    let paths: Vec<PathBuf> = words.iter().map(PathBuf::from).collect();
    let mut reply = Reply::default();
    for source in load(&paths) {
        match source {
            Ok(source) => check_source(&source, &mut reply),
            Err(trouble) => reply.complain(&trouble),
        }
    }
    reply
}

/// Adds the words about one bundle, and the status of a refusal.
pub fn check_source(source: &Source, reply: &mut Reply) {
    let verdict = Verifier::new().verify(&source.bytes);
    if verdict.is_accepted() {
        reply.output.push_str(&explain::acceptance(source));
    } else {
        reply.output.push_str(&explain::refusal(source, verdict));
        reply.raise(REFUSED);
    }
}
