//! Links libsgf.a, which `./library` makes, from ../target/lib or from the folder that SGF_LIB_DIR names, seen from the repository.
use std::path::{Path, PathBuf};
use std::{env, fs, process};

/// The machine that an archive is for, by the head of its first object file; none where it is no archive of ELF files.
fn machine(archive: &Path) -> Option<&'static str> {
    let bytes = fs::read(archive).ok()?;
    let at = bytes.windows(4).position(|head| head == b"\x7FELF")?;
    match bytes.get(at + 18..at + 20)? {
        [62, 0] => Some("x86_64"),
        [183, 0] => Some("aarch64"),
        _ => None,
    }
}

fn fail(why: String) -> ! {
    eprintln!("{why}");
    process::exit(1);
}

fn main() {
    println!("cargo:rerun-if-changed=build.rs");
    println!("cargo:rerun-if-env-changed=SGF_LIB_DIR");
    let repository = PathBuf::from(env::var_os("CARGO_MANIFEST_DIR").unwrap()).join("..");
    let dir = repository.join(env::var_os("SGF_LIB_DIR").unwrap_or_else(|| "target/lib".into()));
    let archive = dir.join("libsgf.a");
    println!("cargo:rerun-if-changed={}", archive.display());
    let (arch, system) = (env::var("CARGO_CFG_TARGET_ARCH").unwrap(), env::var("CARGO_CFG_TARGET_OS").unwrap());
    if !["x86_64", "aarch64"].contains(&&*arch) || system != "linux" {
        fail(format!("ekimorepa: there is no libsgf.a for {arch} {system}: only for Linux on x86_64 and aarch64"));
    }
    if !archive.exists() {
        fail(format!("ekimorepa: there is no {}: run ./library in the repository, or let SGF_LIB_DIR name the archive's folder", archive.display()));
    }
    match machine(&archive) {
        Some(made) if made == arch => {}
        Some(made) => fail(format!(
            "ekimorepa: {} is for {made}, and this build for {arch}: run ./library on {arch}, or let SGF_LIB_DIR name the folder of that archive",
            archive.display()
        )),
        None => fail(format!("ekimorepa: {} is no archive of ./library: run that again", archive.display())),
    }
    println!("cargo:rustc-link-search=native={}", dir.display());
    println!("cargo:rustc-link-lib=static=sgf");
}
