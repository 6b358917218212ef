//! What the tests share: the program, the sample and a place for files.
#![allow(dead_code)]

use std::ffi::OsStr;
use std::fs;
use std::path::{Path, PathBuf};
use std::process::Command;

/// Standard output, standard error and exit status.
pub struct Answer {
    pub output: String,
    pub errors: String,
    pub status: i32,
}

/// Runs the program itself, as a shell would.
pub fn flosquedo<I, S>(words: I) -> Answer
where
    I: IntoIterator<Item = S>,
    S: AsRef<OsStr>,
{
    let program = env!("CARGO_BIN_EXE_flosquedo");
    let run = Command::new(program).args(words).output();
    let run = run.expect("the program can be started");
    let text = |bytes| String::from_utf8(bytes).expect("the program prints UTF-8");
    let errors = text(run.stderr);
    assert!(!errors.contains("panicked"), "{}", errors);
    Answer {
        output: text(run.stdout),
        errors,
        status: run.status.code().expect("the program ends by itself"),
    }
}

pub fn agent() -> PathBuf {
    Path::new(env!("CARGO_MANIFEST_DIR")).join("..")
}

pub fn sample() -> PathBuf {
    agent().join("samples/Invoices.bundle")
}

pub fn sample_text() -> String {
    shown(&sample())
}

pub fn shown(path: &Path) -> String {
    path.to_str().expect("paths are UTF-8").to_string()
}

/// A new empty directory for one test.
pub fn fresh_directory(name: &str) -> PathBuf {
    let directory = Path::new(env!("CARGO_TARGET_TMPDIR")).join(name);
    let _ = fs::remove_dir_all(&directory);
    fs::create_dir_all(&directory).expect("a directory can be made");
    directory
}

pub fn written(directory: &Path, name: &str, bytes: &[u8]) -> String {
    let path = directory.join(name);
    fs::write(&path, bytes).expect("a file can be written");
    shown(&path)
}

/// The classes of the sample, cut apart at the second magic number.
pub fn sample_classes() -> (Vec<u8>, Vec<u8>) {
    let bytes = fs::read(sample()).expect("the sample is there");
    let magic = [0xca, 0xfe, 0xba, 0xbe];
    let second = (4..bytes.len()).find(|&at| bytes[at..].starts_with(&magic));
    let (first, second) = bytes.split_at(second.expect("the sample has two classes"));
    (first.to_vec(), second.to_vec())
}
