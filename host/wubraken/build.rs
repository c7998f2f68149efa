//! Links the proved library's archives, from where `tools/build` writes them, and tells
//! the tests which they are.

use std::env;
use std::path::{Path, PathBuf};

fn main() {
    println!("cargo:rerun-if-env-changed=WUBRAKEN_LIB_DIR");
    let directory = match env::var_os("WUBRAKEN_LIB_DIR") {
        Some(directory) => PathBuf::from(directory),
        None => {
            Path::new(&env::var_os("CARGO_MANIFEST_DIR").unwrap()).join("../../target/staticlib")
        }
    };
    println!("cargo:rustc-link-search=native={}", directory.display());
    let mut archives = Vec::new();
    for name in ["wubraken", "wubraken_batch", "echogram", "dealer", "decay"] {
        let archive = directory.join(format!("lib{}.a", name));
        if !archive.exists() {
            println!(
                "cargo:warning={} is not there: run `tools/build {}` first",
                archive.display(),
                name
            );
        }
        println!("cargo:rerun-if-changed={}", archive.display());
        println!("cargo:rustc-link-lib=static={}", name);
        archives.push(archive.display().to_string());
    }
    println!("cargo:rustc-env=WUBRAKEN_ARCHIVES={}", archives.join(":"));
}
