//! Verifies, explains and runs bundles of Java class files.
//!
//! `flosquedo_proved` judges and runs; this crate reads files, names what stands in them and puts answers into words.
#![forbid(unsafe_code)]

pub mod commands;
pub mod explain;
pub mod outline;
pub mod source;

/// The largest bundle, in bytes.
pub const BUNDLE_BYTES: usize = 65_536;
/// The largest number of classes in a bundle.
pub const BUNDLE_CLASSES: usize = 16;
/// The largest budget, in steps.
pub const LARGEST_BUDGET: u32 = 1_000_000;
/// The largest heap, in cells.
pub const LARGEST_HEAP: usize = 16_384;
