//! Says where the library's archive stands: dist/archive, at the root of the repository, makes it. NESFOAL_ARCHIVE names
//! another folder with one.

use std::env;
use std::path::{Path, PathBuf};

fn main() {
    let package = env::var("CARGO_MANIFEST_DIR").unwrap();
    let root = Path::new(&package).parent().unwrap();
    let shipped = root.join("target").join("staticlib");
    let folder = env::var("NESFOAL_ARCHIVE").map_or(shipped, PathBuf::from);
    let archive = folder.join("libnesfoal.a");
    println!("cargo:rustc-link-search=native={}", folder.display());
    println!("cargo:rerun-if-changed={}", archive.display());
    println!("cargo:rerun-if-changed=build.rs");
    println!("cargo:rerun-if-env-changed=NESFOAL_ARCHIVE");
}
