//! Finds libcapi.a, which `packaging/build library` writes, and has it linked.

use std::env;
use std::path::PathBuf;
use std::process::exit;

fn main() {
    println!("cargo:rerun-if-changed=build.rs");
    println!("cargo:rerun-if-env-changed=PARITY_STATICLIB");
    let folder = match env::var_os("PARITY_STATICLIB") {
        Some(named) => PathBuf::from(named),
        None => PathBuf::from(env::var_os("CARGO_MANIFEST_DIR").unwrap()).join("../../target/staticlib"),
    };
    let archive = folder.join("libcapi.a");
    // The folder too: an archive that is put there with its old date changes the folder's.
    println!("cargo:rerun-if-changed={}", archive.display());
    println!("cargo:rerun-if-changed={}", folder.display());
    if !archive.is_file() {
        eprintln!();
        eprintln!("libcapi.a is missing: looked for {}", archive.display());
        eprintln!("Run `packaging/build library` in the root of the repository,");
        eprintln!("or set PARITY_STATICLIB to the folder that holds libcapi.a.");
        exit(1);
    }
    let folder = folder.canonicalize().unwrap();
    println!("cargo:rustc-env=PARITY_ARCHIVE={}", folder.join("libcapi.a").display());
    println!("cargo:rustc-link-search=native={}", folder.display());
    println!("cargo:rustc-link-lib=static=capi");
}
