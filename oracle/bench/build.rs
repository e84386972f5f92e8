//! Links the library of the two tests of a text (the binding links the check's), and tells the program how it was built.
use std::path::PathBuf;
use std::process::Command;
use std::{env, fs};

fn main() {
    let manifest = PathBuf::from(env::var("CARGO_MANIFEST_DIR").expect("run by cargo"));
    println!("cargo:rerun-if-env-changed=IMAGE_CHECK_LIB_DIR");
    let named = env::var("IMAGE_CHECK_LIB_DIR").unwrap_or_else(|_| "../../target".into());
    let directory = manifest.join(named);
    println!("cargo:rustc-link-search=native={}", directory.display());
    let archive = directory.join("libidentity_check.a");
    assert!(fs::exists(&archive).unwrap_or(false), "no {} (IMAGE_CHECK_LIB_DIR)", archive.display());
    println!("cargo:rerun-if-changed={}", archive.display());
    println!("cargo:rustc-link-lib=static=identity_check");
    println!("cargo:rustc-env=BENCH_RUSTC={}", version());
    println!("cargo:rustc-env=BENCH_OPT_LEVEL={}", env::var("OPT_LEVEL").expect("run by cargo"));
    let flags = env::var("CARGO_ENCODED_RUSTFLAGS").unwrap_or_default();
    println!("cargo:rustc-env=BENCH_FLAGS={}", flags.replace('\x1f', " "));
}

fn version() -> String {
    let rustc = env::var("RUSTC").expect("run by cargo");
    let printed = Command::new(rustc).arg("--version").output().expect("rustc runs");
    String::from_utf8_lossy(&printed.stdout).trim().to_string()
}
