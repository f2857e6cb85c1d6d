//! Finds the archive of the library: in DIGARUMBI_LIB_DIR, or where ./build writes it.

use std::env;
use std::path::{Path, PathBuf};

const ARCHIVE: &str = "libdigarumbi.a";

fn directory() -> PathBuf {
    match env::var_os("DIGARUMBI_LIB_DIR") {
        Some(directory) => PathBuf::from(directory),
        None => Path::new(env!("CARGO_MANIFEST_DIR")).join("../../target/lib"),
    }
}

fn main() {
    println!("cargo:rerun-if-env-changed=DIGARUMBI_LIB_DIR");
    let directory = directory();
    let archive = directory.join(ARCHIVE);
    println!("cargo:rerun-if-changed={}", archive.display());
    if !archive.is_file() {
        eprintln!("{} is not there.", archive.display());
        eprintln!("Run ./build at the root of the repository, or set DIGARUMBI_LIB_DIR to the folder of {ARCHIVE}.");
        std::process::exit(1);
    }
    println!("cargo:rustc-link-search=native={}", directory.display());
    println!("cargo:rustc-link-lib=static=digarumbi");
}
