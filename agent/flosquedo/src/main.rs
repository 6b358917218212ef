//! The command line.
#![forbid(unsafe_code)]

use std::ffi::OsString;
use std::io::{stderr, stdout, Write};
use std::process::ExitCode;

fn main() -> ExitCode {
    let words: Vec<OsString> = std::env::args_os().skip(1).collect();
    let reply = flosquedo::commands::answer(&words);
    // A reader that has gone away is no reason to fail loudly.
    let _ = stdout().write_all(reply.output.as_bytes());
    let _ = stderr().write_all(reply.errors.as_bytes());
    ExitCode::from(reply.status)
}
