//! Finds the library, libierbulosc.a: in the folder that IERBULOSC_LIB names,
//! else in target/staticlib of the project.

use std::env;
use std::path::{Path, PathBuf};

const ARCHIVE: &str = "libierbulosc.a";

fn main() {
    println!("cargo::rerun-if-env-changed=IERBULOSC_LIB");
    println!("cargo::rerun-if-changed=build.rs");
    let folder = folder();
    let archive = folder.join(ARCHIVE);
    println!("cargo::rerun-if-changed={}", archive.display());
    if !archive.is_file() {
        println!(
            "cargo::error={ARCHIVE} is not in {}: make it with `./build ierbulosc`, \
             or name its folder, with the full path, in IERBULOSC_LIB",
            folder.display()
        );
        return;
    }
    println!("cargo::rustc-link-search=native={}", folder.display());
    println!("cargo::rustc-link-lib=static=ierbulosc");
}

/// The folder of the library.
fn folder() -> PathBuf {
    match env::var_os("IERBULOSC_LIB") {
        Some(folder) if !folder.is_empty() => PathBuf::from(folder),
        _ => {
            let package = env::var_os("CARGO_MANIFEST_DIR").unwrap_or_default();
            Path::new(&package).join("../target/staticlib")
        }
    }
}
