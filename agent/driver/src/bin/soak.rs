//! `soak SECONDS SEED`: damaged bundles and their runs for so long, from a seed on.

use std::process::ExitCode;
use std::time::{Duration, Instant};

use flosquedo_driver::compare::Tally;
use flosquedo_driver::rounds::Rounds;
use flosquedo_driver::Part;

const TOLD_EVERY: Duration = Duration::from_secs(60);

fn main() -> ExitCode {
    let words: Vec<String> = std::env::args().skip(1).collect();
    let numbers: Vec<Option<u64>> = words.iter().map(|word| word.parse().ok()).collect();
    match numbers.as_slice() {
        [Some(seconds), Some(seed)] => soak(Duration::from_secs(*seconds), *seed),
        _ => {
            eprintln!("usage: soak SECONDS SEED");
            ExitCode::from(2)
        }
    }
}

fn soak(duration: Duration, first: u64) -> ExitCode {
    let mut tally = Tally::new(Part::Verifier);
    let rounds = Rounds::default();
    let start = Instant::now();
    let (mut seed, mut told) = (first, start);
    while start.elapsed() < duration {
        rounds.round(&mut tally, seed);
        seed = seed.wrapping_add(1);
        if told.elapsed() >= TOLD_EVERY {
            told = Instant::now();
            println!("seed {}: {}", seed, tally.told());
        }
    }
    println!(
        "seeds {} to {}: {}",
        first,
        seed.wrapping_sub(1),
        tally.told()
    );
    match tally.differences {
        0 => ExitCode::SUCCESS,
        _ => ExitCode::FAILURE,
    }
}
