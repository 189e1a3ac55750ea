//! Compiles the crate sgf-parse from its own folder, names its private lexer, and links the library.
use std::env;
use std::path::{Path, PathBuf};
use std::process::Command;

/// The folder that an environment variable names, or the default, seen from the repository.
fn folder(variable: &str, default: &str) -> PathBuf {
    println!("cargo:rerun-if-env-changed={variable}");
    let repository = PathBuf::from(env::var_os("CARGO_MANIFEST_DIR").unwrap()).join("..");
    repository.join(env::var_os(variable).unwrap_or_else(|| default.into()))
}

/// Puts libsgf_parse.rlib where `extern crate sgf_parse` finds it.
fn compile_oracle(source: &Path) {
    let root = source.join("src/lib.rs");
    assert!(root.exists(), "no sgf-parse in {}: set SGF_PARSE_SRC", source.display());
    println!("cargo:rerun-if-changed={}", source.display());
    println!("cargo:rustc-env=SGF_LEXER={}", source.join("src/lexer.rs").display());
    let out = env::var("OUT_DIR").unwrap();
    let status = Command::new(env::var_os("RUSTC").unwrap())
        .args(["--crate-name", "sgf_parse", "--crate-type", "rlib", "--edition", "2021"])
        .args(["-C", "opt-level=3", "--cap-lints", "allow", "--out-dir", &out])
        .arg(&root)
        .status()
        .expect("rustc does not run");
    assert!(status.success(), "sgf-parse does not compile");
    println!("cargo:rustc-link-search=dependency={out}");
    println!("cargo:rustc-link-search=crate={out}");
}

/// Links libsgf.a; with SGF_STAND_IN set the plain implementation takes its place, which tests this program alone.
fn link_library(dir: &Path) {
    println!("cargo:rerun-if-env-changed=SGF_STAND_IN");
    if env::var_os("SGF_STAND_IN").is_some() {
        println!("cargo:rustc-cfg=stand_in");
        return;
    }
    let archive = dir.join("libsgf.a");
    println!("cargo:rerun-if-changed={}", archive.display());
    assert!(archive.exists(), "no {}: run ./library in the repository, or set SGF_LIB_DIR", archive.display());
    println!("cargo:rustc-link-search=native={}", dir.display());
    println!("cargo:rustc-link-lib=static=sgf");
}

fn main() {
    println!("cargo:rerun-if-changed=build.rs");
    compile_oracle(&folder("SGF_PARSE_SRC", "../shared/docs/src"));
    link_library(&folder("SGF_LIB_DIR", "target/lib"));
}
