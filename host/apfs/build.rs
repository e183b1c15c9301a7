//! Links the port's archive, if any of its calls is wanted.

use std::env;
use std::path::PathBuf;
use std::process::exit;

fn folder() -> PathBuf {
    println!("cargo:rerun-if-env-changed=APFS_STATICLIB_DIR");
    match env::var_os("APFS_STATICLIB_DIR") {
        Some(folder) => PathBuf::from(folder),
        None => PathBuf::from(env::var_os("CARGO_MANIFEST_DIR").unwrap()).join("../../target/staticlib"),
    }
}

fn main() {
    println!("cargo:rerun-if-changed=build.rs");
    if env::var_os("CARGO_FEATURE_OPEN").is_none() {
        return;
    }
    let folder = folder();
    let archive = folder.join("libapfs.a");
    println!("cargo:rerun-if-changed={}", archive.display());
    if !archive.is_file() {
        eprintln!("{} is not there.", archive.display());
        eprintln!("Run `tools/archives.sh apfs` in the repository, or name the archive's folder in APFS_STATICLIB_DIR.");
        exit(1);
    }
    let folder = folder.canonicalize().expect("the archive's folder");
    println!("cargo:rustc-link-search=native={}", folder.display());
    println!("cargo:rustc-link-lib=static=apfs");
}
