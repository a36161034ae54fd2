//! Tells the linker where the exported functions are.
//!
//! `REEL_LIB` is the path of the static library. Relative paths and the default are taken from this
//! project's directory.

use std::env;
use std::path::{Path, PathBuf};

fn main() {
    println!("cargo:rerun-if-changed=build.rs");
    println!("cargo:rerun-if-env-changed=REEL_LIB");
    if env::var_os("CARGO_FEATURE_STANDIN").is_none() {
        link("REEL_LIB", "../../target/staticlib/libreport.a");
    }
    println!("cargo:rerun-if-env-changed=REEL_BENCH_LIB");
    if env::var_os("CARGO_FEATURE_LEAVES").is_some() {
        link("REEL_BENCH_LIB", "../../target/staticlib/libbench.a");
    }
}

fn link(variable: &str, default: &str) {
    let project = PathBuf::from(env::var_os("CARGO_MANIFEST_DIR").unwrap());
    let path = env::var_os(variable).unwrap_or_else(|| default.into());
    let path = project.join(Path::new(&path));
    println!("cargo:rerun-if-changed={}", path.display());
    let Ok(path) = path.canonicalize() else {
        eprintln!("there is no library at {}", path.display());
        eprintln!("build it first and set {variable}, or build with --features standin");
        std::process::exit(1);
    };
    let directory = path.parent().unwrap();
    let stem = path.file_stem().unwrap().to_str().unwrap();
    let name = stem
        .strip_prefix("lib")
        .expect("the library's name begins with lib");
    println!("cargo:rustc-link-search=native={}", directory.display());
    println!("cargo:rustc-link-lib=static={name}");
}
