//! Holds the compiled functions against the outside, and measures them.

pub mod bench;
mod bundles;
pub mod check;
pub mod compare;
pub mod measure;
mod part;
pub mod rounds;
mod vectors;

pub use part::Part;
