//! Bundles as they come from files: one bundle file, or class files put end to end.

use crate::{BUNDLE_BYTES, BUNDLE_CLASSES};
use std::ffi::OsStr;
use std::fs::{self, File};
use std::io::Read;
use std::path::{Path, PathBuf};

/// More class files than anybody means to bundle: a sign of the wrong directory.
const SEARCHED_FILES: usize = 1_000;

/// A message for people about a file or a word that cannot be used.
#[derive(Clone, Debug, PartialEq, Eq)]
pub struct Trouble(pub String);

/// A bundle in memory and the files it came from.
pub struct Source {
    pub name: String,
    pub bytes: Vec<u8>,
    pub parts: Vec<Part>,
}

/// One file of a bundle and its first byte there.
pub struct Part {
    pub file: String,
    pub start: usize,
}

impl Source {
    /// The file that holds a byte of the bundle, and the byte's offset there; None for a bundle file.
    pub fn file_offset(&self, place: usize) -> Option<(&str, usize)> {
        let holder = self.parts.iter().rev().find(|part| part.start <= place);
        holder.map(|part| (part.file.as_str(), place - part.start))
    }
}

/// A file's bytes, cut one past the largest bundle: any longer file gets the same answer.
pub fn read_file(path: &Path) -> Result<Vec<u8>, Trouble> {
    let failed = |error: std::io::Error| trouble(path, &error.to_string());
    if fs::metadata(path).map_err(failed)?.is_dir() {
        return Err(trouble(path, "is a directory, and a file is needed here"));
    }
    let file = File::open(path).map_err(failed)?;
    let mut bytes = Vec::new();
    let most = BUNDLE_BYTES as u64 + 1;
    file.take(most).read_to_end(&mut bytes).map_err(failed)?;
    Ok(bytes)
}

/// Why a file cannot be a bundle, or None if its size allows it.
pub fn too_large(path: &Path, bytes: &[u8]) -> Option<Trouble> {
    let message = "is too large: a bundle has at most 65,536 bytes";
    Some(trouble(path, message)).filter(|_| bytes.len() > BUNDLE_BYTES)
}

/// The bundles that paths stand for: class files together, each directory, each other file.
pub fn load(paths: &[PathBuf]) -> Vec<Result<Source, Trouble>> {
    let (classes, others): (Vec<&PathBuf>, Vec<&PathBuf>) = paths
        .iter()
        .partition(|path| is_class_file(path) && !path.is_dir());
    let mut sources = Vec::new();
    if !classes.is_empty() {
        let mut classes: Vec<PathBuf> = classes.into_iter().cloned().collect();
        classes.sort();
        sources.push(join(name_of_files(&classes), &classes));
    }
    sources.extend(others.into_iter().map(|path| load_one(path)));
    sources
}

/// The bundle that one path stands for.
pub fn load_one(path: &Path) -> Result<Source, Trouble> {
    if path.is_dir() {
        return join(shown(path), &class_files_below(path)?);
    }
    let bytes = read_file(path)?;
    match too_large(path, &bytes) {
        Some(trouble) => Err(trouble),
        None => Ok(Source {
            name: shown(path),
            bytes,
            parts: Vec::new(),
        }),
    }
}

/// Every class file below a directory, sorted; links to directories are not followed.
pub fn class_files_below(directory: &Path) -> Result<Vec<PathBuf>, Trouble> {
    let mut waiting = vec![directory.to_path_buf()];
    let mut found = Vec::new();
    while let Some(next) = waiting.pop().filter(|_| found.len() <= SEARCHED_FILES) {
        let failed = |error: std::io::Error| trouble(&next, &error.to_string());
        for entry in fs::read_dir(&next).map_err(failed)? {
            let entry = entry.map_err(failed)?;
            let path = entry.path();
            if entry.file_type().map_err(failed)?.is_dir() {
                waiting.push(path);
            } else if is_class_file(&path) && path.is_file() {
                found.push(path);
            }
        }
    }
    if found.len() > SEARCHED_FILES {
        let message = "holds over 1,000 .class files, and a bundle has at most 16";
        return Err(trouble(directory, message));
    }
    if found.is_empty() {
        return Err(trouble(directory, "holds no .class files"));
    }
    found.sort();
    Ok(found)
}

/// Class files end to end; reading stops once the bundle is too large anyway.
pub fn join(name: String, files: &[PathBuf]) -> Result<Source, Trouble> {
    let mut source = Source {
        name,
        bytes: Vec::new(),
        parts: Vec::new(),
    };
    for file in files {
        if source.bytes.len() > BUNDLE_BYTES {
            break;
        }
        source.parts.push(Part {
            file: shown(file),
            start: source.bytes.len(),
        });
        let bytes = read_file(file)?;
        if let Some(trouble) = too_large(file, &bytes) {
            return Err(trouble);
        }
        source.bytes.extend(bytes);
    }
    Ok(source)
}

/// Why class files cannot make a bundle, if they are too many or too large.
pub fn over_limits(source: &Source, file_count: usize) -> Option<Trouble> {
    if file_count > BUNDLE_CLASSES {
        let message = format!(
            "{}: {} class files, and a bundle has at most 16",
            source.name, file_count
        );
        return Some(Trouble(message));
    }
    if source.bytes.len() > BUNDLE_BYTES {
        let message = format!(
            "{}: the class files together are over 65,536 bytes, the most that a bundle has",
            source.name
        );
        return Some(Trouble(message));
    }
    None
}

pub fn shown(path: &Path) -> String {
    path.to_string_lossy().into_owned()
}

pub fn trouble(path: &Path, message: &str) -> Trouble {
    Trouble(format!("{}: {}", shown(path), message))
}

pub fn is_class_file(path: &Path) -> bool {
    path.extension() == Some(OsStr::new("class"))
}

fn name_of_files(files: &[PathBuf]) -> String {
    let names: Vec<String> = files.iter().map(|file| shown(file)).collect();
    names.join(", ")
}
