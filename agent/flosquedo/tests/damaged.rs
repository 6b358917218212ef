//! Every explanation of refused and damaged bundles comes without a panic and with its parts.

mod common;

use flosquedo::explain::{acceptance, refusal};
use flosquedo::source::Source;
use flosquedo_mutator::{mutate, Aim};
use flosquedo_outside::{bundles, corpus};
use flosquedo_proved::Verifier;
use std::collections::BTreeSet;
use std::fs;

const MUTANTS: u64 = 4_000;

/// Explains a bundle and gives its verdict's number.
fn explain(bytes: &[u8]) -> u32 {
    let source = Source {
        name: "bundle".to_string(),
        bytes: bytes.to_vec(),
        parts: Vec::new(),
    };
    let verdict = Verifier::new().verify(bytes);
    if verdict.is_accepted() {
        assert!(acceptance(&source).starts_with("bundle: accepted"));
        return 0;
    }
    let text = refusal(&source, verdict);
    let lines: Vec<&str> = text.lines().collect();
    let heads = [
        "bundle: refused: ",
        "  where:    ",
        "  rule:     ",
        "  usually:  ",
        "  numbers:  ",
    ];
    assert_eq!(lines.len(), heads.len(), "{}", text);
    for (line, head) in lines.iter().zip(heads) {
        assert!(
            line.starts_with(head) && line.len() > head.len(),
            "{}",
            text
        );
        assert!(!line.chars().any(char::is_control), "{}", text);
    }
    verdict.number
}

#[test]
fn every_edge_and_example_is_explained() {
    let mut numbers = BTreeSet::new();
    let all: Vec<Vec<u8>> = [bundles("edges"), bundles("examples")].concat();
    for bytes in &all {
        numbers.insert(explain(bytes));
    }
    assert!(all.len() > 81 && numbers.len() > 12, "{:?}", numbers);
}

#[test]
fn mutants_are_explained() {
    let corpus = corpus();
    let mut numbers = BTreeSet::new();
    for seed in 0..MUTANTS {
        let aim = if seed % 2 == 0 {
            Aim::Anything
        } else {
            Aim::Code
        };
        numbers.insert(explain(&mutate(&corpus, aim, seed)));
    }
    for number in (0..=18).filter(|&number| number != 1) {
        assert!(numbers.contains(&number), "no mutant has {}", number);
    }
}

#[test]
fn every_cut_and_every_flipped_byte_is_explained() {
    let whole = fs::read(common::sample()).unwrap();
    for length in 0..whole.len() {
        explain(&whole[..length]);
        let mut flipped = whole.clone();
        flipped[length] ^= 0xff;
        explain(&flipped);
    }
}
