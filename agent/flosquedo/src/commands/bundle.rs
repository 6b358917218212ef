//! `bundle`: class files put end to end.

use super::{help, misuse, Reply};
use crate::source::{class_files_below, is_class_file, join, over_limits, shown, trouble, Trouble};
use std::ffi::OsString;
use std::path::Path;

pub fn bundle(words: &[OsString]) -> Reply {
    match words {
        [directory, out] => {
            write_bundle(Path::new(directory), Path::new(out)).unwrap_or_else(Reply::from)
        }
        _ => misuse("bundle needs a directory and a file to write", help::BUNDLE),
    }
}

fn write_bundle(directory: &Path, out: &Path) -> Result<Reply, Trouble> {
    // Otherwise a slip of the hand writes over a class, or the next bundle holds this one.
    if is_class_file(out) {
        return Err(trouble(out, "a bundle's name does not end in .class"));
    }
    let files = class_files_below(directory)?;
    let source = join(shown(directory), &files)?;
    if let Some(trouble) = over_limits(&source, files.len()) {
        return Err(trouble);
    }
    std::fs::write(out, &source.bytes).map_err(|error| trouble(out, &error.to_string()))?;
    let size = source.bytes.len();
    let text = format!(
        "{}: {} class file(s), {} bytes\n",
        shown(out),
        files.len(),
        size
    );
    Ok(Reply::output(text))
}
