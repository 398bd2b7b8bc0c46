//! Tells the linker where the main code's static library is; only the feature `ours` uses it.

use std::path::Path;
use std::{env, process};

fn main() {
    println!("cargo:rerun-if-changed=build.rs");
    if env::var_os("CARGO_FEATURE_OURS").is_some() {
        let root = env::var("CARGO_MANIFEST_DIR").expect("cargo sets CARGO_MANIFEST_DIR");
        let folder = Path::new(&root).join("../target/staticlib");
        let archive = folder.join("libjasminedo.a");
        if !archive.exists() {
            eprintln!("target/staticlib/libjasminedo.a is missing in the project's root: make it first");
            process::exit(1);
        }
        println!("cargo:rustc-link-search=native={}", folder.display());
        println!("cargo:rerun-if-changed={}", archive.display());
    }
}
