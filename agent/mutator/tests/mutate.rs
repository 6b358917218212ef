//! The mutator is deterministic, changes things, and takes any bytes.

use std::collections::BTreeSet;
use std::fs;
use std::path::Path;

use flosquedo_mutator::{mutate, Aim};

fn job() -> Vec<u8> {
    let vectors = Path::new(env!("CARGO_MANIFEST_DIR")).join("../vectors");
    fs::read(vectors.join("jobs/bundles/Bank.r8.bundle")).expect("a job")
}

#[test]
fn the_same_seed_gives_the_same_mutant() {
    let corpus = [job()];
    for seed in 0..200 {
        let first = mutate(&corpus, Aim::Anything, seed);
        assert_eq!(first, mutate(&corpus, Aim::Anything, seed));
    }
}

#[test]
fn most_mutants_differ_from_the_original_and_each_other() {
    let corpus = [job()];
    for aim in [Aim::Anything, Aim::Code] {
        let mutants: BTreeSet<Vec<u8>> = (0..500).map(|seed| mutate(&corpus, aim, seed)).collect();
        assert!(mutants.len() > 400, "{:?}: {}", aim, mutants.len());
    }
}

#[test]
fn anything_can_be_damaged() {
    let magic_only = vec![0xca, 0xfe, 0xba, 0xbe];
    let corpora = [vec![], vec![vec![]], vec![magic_only], vec![vec![0xff; 64]]];
    for corpus in &corpora {
        for seed in 0..300 {
            mutate(corpus, Aim::Anything, seed);
            mutate(corpus, Aim::Code, seed);
        }
    }
}

/// Damage upon damage: the layout of a broken bundle is read as far as it goes.
#[test]
fn mutants_can_be_mutated() {
    let mut bundle = job();
    for seed in 0..500 {
        bundle = mutate(&[bundle, job()], Aim::Anything, seed);
        bundle.truncate(20_000);
    }
}
