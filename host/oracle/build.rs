//! Finds the published sources and writes the crate's root, which names each file in its place.

use std::env;
use std::fmt::Write as _;
use std::fs;
use std::path::{Path, PathBuf};

const MODULES: [&str; 10] = ["btree", "bytes", "checksum", "dev", "error", "fs", "name_hash", "nx", "obj", "omap"];

// Lints are the authors' affair, and much of what is private to the crate has no caller here.
const ALLOW: &str = "#[allow(dead_code, unused, clippy::all)]";

fn published() -> PathBuf {
    println!("cargo:rerun-if-env-changed=WINAPFS_SRC");
    match env::var_os("WINAPFS_SRC") {
        Some(folder) => PathBuf::from(folder),
        None => PathBuf::from(env::var_os("CARGO_MANIFEST_DIR").unwrap()).join("../../../shared/docs/src"),
    }
}

fn module(name: &str, file: &Path) -> String {
    println!("cargo:rerun-if-changed={}", file.display());
    format!("{ALLOW}\n#[path = {:?}]\npub mod {name};\n", file.display().to_string())
}

fn root(sources: &Path) -> String {
    let mut text = String::new();
    for name in MODULES {
        text += &module(name, &sources.join(format!("{name}.rs")));
    }
    let write_fs = module("fs", &sources.join("write/fs.rs"));
    writeln!(text, "pub mod write {{\n{write_fs}}}").unwrap();
    text
}

fn complete(sources: &Path) -> bool {
    MODULES.iter().all(|m| sources.join(format!("{m}.rs")).is_file()) && sources.join("write/fs.rs").is_file()
}

fn main() {
    println!("cargo:rerun-if-changed=build.rs");
    println!("cargo:rustc-check-cfg=cfg(winapfs)");
    let folder = published();
    println!("cargo:rerun-if-changed={}", folder.display());
    let Some(sources) = folder.join("crates/apfs/src").canonicalize().ok().filter(|s| complete(s)) else {
        println!("cargo:warning=no winapfs sources in {}: the oracle is empty", folder.display());
        println!("cargo:available=0");
        return;
    };
    let out = PathBuf::from(env::var_os("OUT_DIR").unwrap()).join("root.rs");
    fs::write(&out, root(&sources)).expect("the generated root");
    println!("cargo:rustc-cfg=winapfs");
    println!("cargo:available=1");
}
