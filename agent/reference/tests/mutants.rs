//! Thousands of damaged bundles: no panic, and no accepted one gets stuck.

use std::collections::BTreeMap;

use flosquedo_mutator::{mutate, Aim, Random};
use flosquedo_outside::{bundle, corpus};
use flosquedo_reference::{entries, limits, run, verify, End, Outcome, Verdict};

const MUTANTS: u64 = 20_000;
const UNTOUCHED: u32 = 0x5a5a_5a5a;

/// Checks one damaged bundle and gives its verdict.
fn check_mutant(bytes: &[u8], seed: u64) -> Verdict {
    let verdict = verify(bytes);
    let entries = entries(bytes);
    let refused_to_run = (1..=13).contains(&verdict.number);
    let mut random = Random::new(seed);
    if refused_to_run {
        assert!(entries.is_empty(), "seed {}", seed);
        let outcome = check_run(bytes, &mut random, (0, 0, 0), 100);
        assert_eq!(
            (outcome.refusal, outcome.verdict),
            (21, verdict),
            "seed {}",
            seed
        );
    }
    for &entry in &entries {
        for budget in [40, 3_000] {
            let outcome = check_run(bytes, &mut random, entry, budget);
            assert_eq!(outcome.refusal, 0, "seed {}", seed);
            let stuck = outcome.end == End::Stuck as u32;
            assert!(
                !stuck || !verdict.is_accepted(),
                "seed {} {:?}",
                seed,
                entry
            );
        }
    }
    verdict
}

/// One run on random arguments and a random heap, with what must hold of any run.
fn check_run(bytes: &[u8], random: &mut Random, entry: (u32, u32, u32), budget: u32) -> Outcome {
    let (class, method, parameters) = entry;
    let arguments: Vec<u32> = (0..parameters).map(|_| random.argument()).collect();
    let cells = match random.below(4) {
        0 => random.below(40),
        1 => limits::HEAP_CELLS,
        _ => random.below(1_000),
    };
    let mut heap = vec![UNTOUCHED; cells];
    let outcome = run(bytes, &mut heap, class, method, &arguments, budget);
    assert!(outcome.count <= budget);
    let unused = heap
        .get(outcome.used as usize..)
        .expect("no more used than lent");
    assert!(unused.iter().all(|&cell| cell == UNTOUCHED));
    if outcome.count > 1 {
        let less = random.below(outcome.count as usize) as u32;
        let shorter = run(bytes, &mut heap, class, method, &arguments, less);
        let stopped = (shorter.end, shorter.value, shorter.count);
        assert_eq!(stopped, (End::OutOfSteps as u32, 0, less));
    }
    outcome
}

#[test]
fn mutants_never_panic_and_accepted_ones_never_get_stuck() {
    let all = corpus();
    let accepted = all.iter().filter(|bytes| verify(bytes).is_accepted());
    let accepted: Vec<Vec<u8>> = accepted.cloned().collect();
    let mut verdicts: BTreeMap<u32, u32> = BTreeMap::new();
    for seed in 0..MUTANTS {
        let bytes = match seed % 3 {
            0 => mutate(&all, Aim::Anything, seed),
            _ => mutate(&accepted, Aim::Code, seed),
        };
        let verdict = check_mutant(&bytes, seed);
        *verdicts.entry(verdict.number).or_insert(0) += 1;
    }
    println!("mutants by verdict: {:?}", verdicts);
    for number in (0..=18).filter(|&number| number != 1) {
        assert!(verdicts.contains_key(&number), "no mutant has {}", number);
    }
}

#[test]
fn the_bundles_themselves_hold_up() {
    for (seed, bytes) in corpus().iter().enumerate() {
        check_mutant(bytes, seed as u64);
    }
}

#[test]
fn bytes_without_any_shape_are_refused() {
    let mut random = Random::new(1);
    for seed in 0..500 {
        let length = random.below(300);
        let mut bytes: Vec<u8> = (0..length).map(|_| random.byte()).collect();
        if random.one_in(2) {
            let start = [0xca, 0xfe, 0xba, 0xbe, 0, 0, 0, 52, 0];
            bytes.splice(..0, start);
        }
        assert_ne!(check_mutant(&bytes, seed).number, 0);
    }
}

#[test]
fn every_cut_of_a_bundle_is_refused_or_accepted_whole() {
    let whole = bundle("jobs/bundles/CtorThrows.r8.bundle");
    for length in 0..=whole.len() {
        let (cut, _) = whole.split_at(length);
        let verdict = check_mutant(cut, length as u64);
        let expected: &[u32] = match length {
            0 => &[1],
            _ if length == whole.len() => &[0],
            // A cut between classes leaves a bundle that lacks the others.
            _ => &[2, 9, 13],
        };
        assert!(
            expected.contains(&verdict.number),
            "{} {:?}",
            length,
            verdict
        );
    }
}
