//! Links the archive of `tools/archive reader` if it is there: the reader by itself is only measured.

use std::env;
use std::path::{Path, PathBuf};

fn main() {
    println!("cargo:rustc-check-cfg=cfg(has_reader)");
    println!("cargo:rerun-if-env-changed=FLOSQUEDO_ARCHIVES");
    let directory = match env::var_os("FLOSQUEDO_ARCHIVES") {
        Some(path) => PathBuf::from(path),
        None => Path::new(env!("CARGO_MANIFEST_DIR")).join("../../target/staticlib"),
    };
    let archive = directory.join("libreader.a");
    println!("cargo:rerun-if-changed={}", archive.display());
    if archive.is_file() {
        println!("cargo:rustc-link-search=native={}", directory.display());
        println!("cargo:rustc-link-lib=static=reader");
        println!("cargo:rustc-cfg=has_reader");
    }
}
