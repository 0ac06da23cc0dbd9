//! Has the program `mend` linked in, from the object file that `packaging/build mend` puts there. Its `main`, and the `read`, the `write` and the number
//! of an error that it calls for, get names of their own, so that it can be run again and again on input in memory. And compiles `shims`, each where the
//! headers of its package are.

use std::env;
use std::path::PathBuf;
use std::process::{exit, Command};

const NAMES: [&str; 4] = ["main=mend_main", "read=mend_read", "write=mend_write", "rattle_errno=mend_errno"];

fn folder(name: &str) -> PathBuf {
    PathBuf::from(env::var_os(name).unwrap())
}

/// A shared library, opened when the program runs, whose file `variable` names; nothing where it cannot be made.
fn shim(compiler: &str, source: &str, package: &str, variable: &str) {
    let source = folder("CARGO_MANIFEST_DIR").join("shims").join(source);
    println!("cargo:rerun-if-changed={}", source.display());
    let made = folder("OUT_DIR").join(format!("shim_{package}.so"));
    let mut command = Command::new(compiler);
    command.args(["-O2", "-shared", "-fPIC", "-o"]).arg(&made).arg(&source).arg(format!("-l{package}"));
    let done = command.output().is_ok_and(|output| output.status.success());
    println!("cargo:rustc-env={variable}={}", if done { made.to_string_lossy() } else { "".into() });
}

fn main() {
    println!("cargo:rerun-if-changed=build.rs");
    let object = folder("CARGO_MANIFEST_DIR").join("../target/obj/mend.o");
    println!("cargo:rerun-if-changed={}", object.display());
    if !object.is_file() {
        eprintln!();
        eprintln!("mend.o is missing: looked for {}", object.display());
        eprintln!("Run `packaging/build mend` in the root of the repository.");
        exit(1);
    }
    let renamed = folder("OUT_DIR").join("mend.o");
    let names = NAMES.iter().flat_map(|name| ["--redefine-sym", name]);
    let status = Command::new("objcopy").args(names).arg(&object).arg(&renamed).status();
    assert!(status.is_ok_and(|status| status.success()), "objcopy, of binutils, must rename the symbols of mend.o");
    println!("cargo:rustc-link-arg={}", renamed.display());
    shim("cc", "m4ri.c", "m4ri", "SHIM_M4RI");
    shim("c++", "itpp.cpp", "itpp", "SHIM_ITPP");
}
