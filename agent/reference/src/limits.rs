//! The largest values of a bundle and of a run.

pub const BUNDLE_BYTES: usize = 65_536;
pub const CLASSES: usize = 16;
/// The layout's count, one more than the number of entries.
pub const POOL_COUNT: u32 = 1_024;
pub const TEXT_BYTES: usize = 255;
pub const FIELDS: u32 = 32;
pub const METHODS: u32 = 64;
/// The receiver takes one of these.
pub const PARAMETER_SLOTS: usize = 16;
pub const CODE_BYTES: u32 = 4_096;
pub const MAX_STACK: u32 = 32;
pub const MAX_LOCALS: u32 = 32;
pub const TABLE_ENTRIES: u32 = 32;
pub const FRAMES: u32 = 256;
pub const ARRAY_DEPTH: u8 = 7;

pub const HEAP_CELLS: usize = 16_384;
pub const BUDGET: u32 = 1_000_000;
pub const CALL_DEPTH: usize = 64;
