//! Links the archive of the port's leaves, and says whether the oracle has the published sources.

use std::env;
use std::path::{Path, PathBuf};
use std::process::exit;

fn folder() -> PathBuf {
    println!("cargo:rerun-if-env-changed=APFS_STATICLIB_DIR");
    match env::var_os("APFS_STATICLIB_DIR") {
        Some(folder) => PathBuf::from(folder),
        None => PathBuf::from(env::var_os("CARGO_MANIFEST_DIR").unwrap()).join("../../target/staticlib"),
    }
}

fn link(folder: &Path, name: &str) {
    let archive = folder.join(format!("lib{name}.a"));
    println!("cargo:rerun-if-changed={}", archive.display());
    if !archive.is_file() {
        eprintln!("{} is not there.", archive.display());
        eprintln!("Run `tools/archives.sh {name}` in the repository, or name the archive's folder in APFS_STATICLIB_DIR.");
        exit(1);
    }
    println!("cargo:rustc-link-lib=static={name}");
}

fn main() {
    println!("cargo:rerun-if-changed=build.rs");
    let folder = folder();
    link(&folder, "leaves");
    let folder = folder.canonicalize().expect("the archives' folder");
    println!("cargo:rustc-link-search=native={}", folder.display());

    println!("cargo:rustc-check-cfg=cfg(oracle)");
    if env::var("DEP_WINAPFS_AVAILABLE").as_deref() == Ok("1") {
        println!("cargo:rustc-cfg=oracle");
    }
}
