//! The vectors that stand beside the crates: bundles, and tables of what is known of them.
#![forbid(unsafe_code)]

use std::fs;
use std::path::{Path, PathBuf};

/// The directory of the vectors.
pub fn vectors() -> PathBuf {
    Path::new(env!("CARGO_MANIFEST_DIR")).join("../vectors")
}

/// The bytes of a file of the vectors.
pub fn bundle(name: &str) -> Vec<u8> {
    let path = vectors().join(name);
    fs::read(&path).unwrap_or_else(|error| panic!("{}: {}", path.display(), error))
}

/// The names in a directory of bundles, in order.
pub fn names_in(directory: &str) -> Vec<String> {
    let entries = fs::read_dir(vectors().join(directory)).expect("a directory of vectors");
    let mut names: Vec<String> = entries
        .map(|entry| {
            let name = entry.expect("a directory entry").file_name();
            format!("{}/{}", directory, name.to_string_lossy())
        })
        .collect();
    names.sort();
    names
}

/// The bundles of a directory, in the order of their names.
pub fn bundles(directory: &str) -> Vec<Vec<u8>> {
    names_in(directory)
        .iter()
        .map(|name| bundle(name))
        .collect()
}

/// Every bundle of the vectors.
pub fn corpus() -> Vec<Vec<u8>> {
    ["jobs/bundles", "examples", "edges"].map(bundles).concat()
}

/// The rows of a table without its head, split at tabs.
pub fn rows(table: &str) -> Vec<Vec<String>> {
    let text = fs::read_to_string(vectors().join(table)).expect("a table of vectors");
    let rows = text.lines().skip(1);
    rows.map(|row| row.split('\t').map(str::to_string).collect())
        .collect()
}

pub fn number(text: &str) -> u32 {
    text.parse().unwrap_or_else(|_| panic!("{:?}", text))
}

/// Arguments and values are written signed.
pub fn signed(text: &str) -> u32 {
    let value: i32 = text.parse().unwrap_or_else(|_| panic!("{:?}", text));
    value as u32
}

/// Arguments, parted by commas.
pub fn arguments(text: &str) -> Vec<u32> {
    let parts = text.split(',').filter(|part| !part.is_empty());
    parts.map(signed).collect()
}

/// FNV-1a, 64 bits.
pub fn fnv1a64(bytes: impl IntoIterator<Item = u8>) -> u64 {
    bytes.into_iter().fold(0xcbf2_9ce4_8422_2325, |hash, byte| {
        (hash ^ u64::from(byte)).wrapping_mul(0x0000_0100_0000_01b3)
    })
}
