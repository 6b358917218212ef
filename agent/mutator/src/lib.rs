//! Deterministic damage to bundles of Java class files.
//!
//! A mutator knows the layout of class files just well enough to aim: it can hit an
//! opcode, an operand, a frame, a table entry, a pool index, a count or a length, and
//! it can move whole instructions, members and classes. The same bundles and the same
//! seed always give the same result.
#![forbid(unsafe_code)]

mod damage;
mod edit;
mod layout;
mod random;

pub use random::Random;

/// What the damage is meant for.
#[derive(Clone, Copy, Debug, PartialEq, Eq)]
pub enum Aim {
    /// Any part of a bundle.
    Anything,
    /// Code, frames, tables and limits only: what typing looks at.
    Code,
}

/// One of the bundles, damaged one to three times.
pub fn mutate(bundles: &[Vec<u8>], aim: Aim, seed: u64) -> Vec<u8> {
    let mut random = Random::new(seed);
    let mut bundle = match random.choose(bundles) {
        Some(bundle) => bundle.clone(),
        None => Vec::new(),
    };
    let times = 1 + random.below(3);
    for _ in 0..times {
        damage::damage(&mut bundle, bundles, aim, &mut random);
    }
    bundle
}
