//! Links `libexports.a`: in the directory that `FLOSQUEDO_ARCHIVES` names, or where `tools/archive exports` puts it, which is run if it is not there.

use std::env;
use std::path::{Path, PathBuf};
use std::process::Command;

const ARCHIVE: &str = "libexports.a";

fn main() {
    println!("cargo:rerun-if-env-changed=FLOSQUEDO_ARCHIVES");
    let directory = directory();
    let archive = directory.join(ARCHIVE);
    println!("cargo:rerun-if-changed={}", archive.display());
    if !archive.is_file() {
        make(&archive);
    }
    println!("cargo:rustc-link-search=native={}", directory.display());
    println!("cargo:rustc-link-lib=static=exports");
}

fn root() -> PathBuf {
    Path::new(env!("CARGO_MANIFEST_DIR")).join("../..")
}

fn directory() -> PathBuf {
    match env::var_os("FLOSQUEDO_ARCHIVES") {
        Some(path) => PathBuf::from(path),
        None => root().join("target/staticlib"),
    }
}

/// Proves and compiles the machine; minutes, where nothing was proved before.
fn make(archive: &Path) {
    if env::var_os("FLOSQUEDO_ARCHIVES").is_some() {
        panic!(
            "{} is not there: FLOSQUEDO_ARCHIVES must name the directory of {}",
            archive.display(),
            ARCHIVE
        );
    }
    println!("cargo:warning=proving and compiling the machine by `tools/archive exports`; this takes minutes");
    let made = Command::new(root().join("tools/archive"))
        .arg("exports")
        .current_dir(root())
        .output();
    match made {
        Err(error) => panic!(
            "{} is not there, and `tools/archive exports`, which makes it, could not be started ({}). Install rt, the Rattle toolchain, or set FLOSQUEDO_ARCHIVES to a directory with {}.",
            archive.display(), error, ARCHIVE
        ),
        Ok(output) if !output.status.success() => panic!(
            "`tools/archive exports` failed:\n{}{}",
            String::from_utf8_lossy(&output.stdout), String::from_utf8_lossy(&output.stderr)
        ),
        Ok(_) => assert!(archive.is_file(), "`tools/archive exports` did not write {}", archive.display()),
    }
}
