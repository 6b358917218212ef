//! An independent verifier and plain machine for bundles of Java class files,
//! written from the paper alone and kept apart from the proved one.
#![forbid(unsafe_code)]

mod bytes;
mod classfile;
mod frames;
mod heap;
mod hierarchy;
mod instruction;
pub mod limits;
mod link;
mod machine;
mod names;
mod opcodes;
mod pool;
mod prepared;
mod resolve;
mod run;
mod shape;
mod types;
mod verdict;
mod walk;

pub use machine::End;
pub use run::{entries, run, Outcome};
pub use verdict::{Verdict, UNNAMED};

/// Accepts a bundle or gives the first refusal in the paper's order.
pub fn verify(bundle: &[u8]) -> Verdict {
    first_refusal(bundle).err().unwrap_or(Verdict::ACCEPTED)
}

fn first_refusal(bundle: &[u8]) -> Result<(), Verdict> {
    let files = classfile::read_bundle(bundle).map_err(Verdict::in_bundle)?;
    let program = link::link(files)?;
    let shaped = shape::shape(&program)?;
    walk::type_check(&program, &shaped)
}
