//! Links the static library. It is where `tools/build library` writes it, or in the folder that SIMMERTHREAD_LIB names.

use std::env;
use std::path::PathBuf;

fn main() {
    println!("cargo::rerun-if-env-changed=SIMMERTHREAD_LIB");
    let folder = match env::var_os("SIMMERTHREAD_LIB") {
        Some(folder) => PathBuf::from(folder),
        None => PathBuf::from(
            env::var_os("CARGO_MANIFEST_DIR").expect("cargo names the crate's folder"),
        )
        .join("../../target/staticlib"),
    };
    let archive = folder.join("libhost.a");
    println!("cargo::rerun-if-changed={}", archive.display());
    if !archive.exists() {
        println!(
            "cargo::error=no {}: run `tools/build library` at the repository's top, or name its folder in SIMMERTHREAD_LIB",
            archive.display()
        );
        return;
    }
    println!("cargo::rustc-link-search=native={}", folder.display());
    println!("cargo::rustc-link-lib=static=host");
}
