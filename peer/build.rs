//! Links libexports.a into the program: from the folder MORLEWEN_ARCHIVE_DIR (a whole path), else from ../target/host.
//! The peer library and its tests do not need the archive.

use std::env;
use std::path::PathBuf;

fn main() {
    println!("cargo:rerun-if-env-changed=MORLEWEN_ARCHIVE_DIR");
    let home = PathBuf::from(env::var_os("CARGO_MANIFEST_DIR").expect("cargo names the folder"));
    let folder = env::var_os("MORLEWEN_ARCHIVE_DIR").map_or(home.join("../target/host"), PathBuf::from);
    let archive = folder.join("libexports.a");
    println!("cargo:rerun-if-changed={}", archive.display());
    println!("cargo:rustc-link-arg-bins={}", archive.display());
}
