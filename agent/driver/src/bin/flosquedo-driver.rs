//! `check` holds the compiled functions against the vectors and the independent implementation; `measure` measures them.

use std::process::ExitCode;

use flosquedo_driver::{check, measure};

fn main() -> ExitCode {
    let words: Vec<String> = std::env::args().skip(1).collect();
    let words: Vec<&str> = words.iter().map(String::as_str).collect();
    match words.as_slice() {
        ["check"] => check::check(),
        ["measure", "reader"] => measure::measure_reader(),
        ["measure", "verifier"] => measure::measure_verifier(),
        ["measure", "machine"] => measure::measure_machine(),
        _ => {
            eprintln!("usage: flosquedo-driver check | measure reader | measure verifier | measure machine");
            ExitCode::from(2)
        }
    }
}
