//! Damaged bundles, seed by seed.

use flosquedo_mutator::{mutate, Aim, Random};
use flosquedo_outside::{bundle, corpus, names_in};
use flosquedo_reference::verify;

use crate::compare::Tally;

/// What is damaged: all bundles, and those that are accepted.
pub struct Rounds {
    all: Vec<Vec<u8>>,
    accepted: Vec<Vec<u8>>,
}

impl Default for Rounds {
    fn default() -> Rounds {
        let all = corpus();
        let accepted = all.iter().filter(|bytes| verify(bytes).is_accepted());
        let accepted = accepted.cloned().collect();
        Rounds { all, accepted }
    }
}

impl Rounds {
    pub fn damaged(&self, seed: u64) -> Vec<u8> {
        match seed % 3 {
            0 => mutate(&self.all, Aim::Anything, seed),
            _ => mutate(&self.accepted, Aim::Code, seed),
        }
    }

    /// One damaged bundle: its verdict and its runs.
    pub fn round(&self, tally: &mut Tally, seed: u64) {
        let bytes = self.damaged(seed);
        let name = format!("seed {}", seed);
        let verdict = tally.bundle(&name, &bytes);
        let mut random = Random::new(seed);
        tally.runs_of(&name, &bytes, verdict, &mut random);
        if seed % 50 == 0 {
            tally.refused_runs(&name, &bytes, &mut random);
        }
    }
}

/// A job cut short after each byte.
pub fn cuts(tally: &mut Tally) {
    let bytes = bundle(&names_in("jobs/bundles")[0]);
    for length in 0..bytes.len() {
        tally.bundle(&format!("cut at {}", length), &bytes[..length]);
    }
}
