//! What the gate holds the compiled functions to.

use std::process::ExitCode;

use flosquedo_mutator::Random;
use flosquedo_outside::{bundle, names_in};

use crate::compare::Tally;
use crate::part::Part;
use crate::rounds::{cuts, Rounds};
use crate::vectors;

const MUTANTS: u64 = 20_000;

/// Holds every linked part against the outside.
pub fn check() -> ExitCode {
    let mut differences = check_verifier_and_machine();
    if Part::Reader.is_linked() {
        differences += check_reader();
    }
    match differences {
        0 => ExitCode::SUCCESS,
        _ => ExitCode::FAILURE,
    }
}

fn check_verifier_and_machine() -> usize {
    let mut tally = Tally::new(Part::Verifier);
    let mut random = Random::new(1);
    vectors::verdicts(&mut tally);
    vectors::edge_runs(&mut tally, &mut random);
    vectors::job_runs(&mut tally);
    println!("vectors: {}", tally.told());
    cuts(&mut tally);
    let job = bundle(&names_in("jobs/bundles")[0]);
    tally.wrong_sizes(&job);
    tally.refused_runs("a job", &job, &mut random);
    let rounds = Rounds::default();
    for seed in 0..MUTANTS {
        rounds.round(&mut tally, seed);
    }
    println!("in all: {}", tally.told());
    tally.differences
}

fn check_reader() -> usize {
    let mut tally = Tally::new(Part::Reader);
    vectors::verdicts(&mut tally);
    cuts(&mut tally);
    tally.wrong_sizes(&bundle(&names_in("jobs/bundles")[0]));
    let rounds = Rounds::default();
    for seed in 0..MUTANTS {
        tally.bundle(&format!("seed {}", seed), &rounds.damaged(seed));
    }
    println!("{}", tally.told());
    tally.differences
}
