//! `verify`: verdicts as numbers.

use super::{help, misuse, Reply, REFUSED};
use crate::source::{read_file, too_large};
use flosquedo_proved::Verifier;
use std::ffi::OsString;
use std::path::Path;

pub fn verify(words: &[OsString]) -> Reply {
    if words.is_empty() {
        return misuse("verify needs at least one file", help::VERIFY);
    }
    let mut verifier = Verifier::new();
    let mut reply = Reply::default();
    for word in words {
        let path = Path::new(word);
        let bytes = match read_file(path) {
            Ok(bytes) => bytes,
            Err(trouble) => {
                reply.complain(&trouble);
                continue;
            }
        };
        let v = verifier.verify(&bytes);
        let file = word.to_string_lossy();
        let line = format!(
            "{}\t{}\t{}\t{}\t{}\n",
            file, v.number, v.class, v.method, v.place
        );
        reply.output.push_str(&line);
        if !v.is_accepted() {
            reply.raise(REFUSED);
        }
        if let Some(trouble) = too_large(path, &bytes) {
            reply.complain(&trouble);
        }
    }
    reply
}
