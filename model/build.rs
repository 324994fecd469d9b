//! Links `libhost.a`, the proved library for a C host, from `../target/staticlib`
//! or from the directory that the environment variable TOVRIDSA_LIB names.

use std::env;
use std::path::PathBuf;
use std::process::exit;

fn main() {
    println!("cargo:rerun-if-changed=build.rs");
    println!("cargo:rerun-if-env-changed=TOVRIDSA_LIB");
    let manifest = PathBuf::from(env::var_os("CARGO_MANIFEST_DIR").expect("cargo sets it"));
    let directory = match env::var_os("TOVRIDSA_LIB") {
        // An absolute path replaces the manifest's directory in `join`.
        Some(named) => manifest.join(named),
        None => manifest.join("../target/staticlib"),
    };
    let archive = directory.join("libhost.a");
    println!("cargo:rerun-if-changed={}", archive.display());
    if !archive.is_file() {
        eprintln!(
            "{} is missing: run `tools/build host` first,",
            archive.display()
        );
        eprintln!("or name the directory that holds libhost.a in TOVRIDSA_LIB");
        exit(1);
    }
    println!("cargo:rustc-link-search=native={}", directory.display());
    println!("cargo:rustc-link-lib=static=host");
}
