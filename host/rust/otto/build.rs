//! Says where `libotto.a` is: in the folder that the environment variable `OTTO_LIB_DIR` names, and
//! where there is none, where this repository makes it. `cargo check` and `cargo doc` work without
//! it, a build does not.

use std::env;
use std::path::{Path, PathBuf};

fn main() {
    let folder = env::var_os("OTTO_LIB_DIR").map_or_else(
        || Path::new(env!("CARGO_MANIFEST_DIR")).join("../../../crates/otto/out"),
        PathBuf::from,
    );
    let archive = folder.join("libotto.a");

    if !archive.is_file() {
        println!(
            "cargo::warning={} is not there: OTTO_LIB_DIR names the folder that it is in",
            archive.display()
        );
    }
    println!("cargo::rerun-if-env-changed=OTTO_LIB_DIR");
    println!("cargo::rerun-if-changed={}", archive.display());
    println!("cargo::rustc-link-search=native={}", folder.display());
    println!("cargo::rustc-link-lib=static=otto");
}
