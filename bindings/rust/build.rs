//! Finds libimage_check.a: in the directory that IMAGE_CHECK_LIB_DIR names, or in target of the repository.
use std::env;
use std::path::PathBuf;

fn main() {
    println!("cargo:rerun-if-env-changed=IMAGE_CHECK_LIB_DIR");
    let here = PathBuf::from(env::var_os("CARGO_MANIFEST_DIR").expect("cargo sets CARGO_MANIFEST_DIR"));
    let dir = match env::var_os("IMAGE_CHECK_LIB_DIR") {
        Some(dir) => PathBuf::from(dir),
        None => here.join("../../target"),
    };
    let archive = dir.join("libimage_check.a");
    println!("cargo:rerun-if-changed={}", archive.display());
    if !archive.is_file() {
        let archive = archive.display();
        panic!("no {archive}: `./build image_check` at the repository's root makes it (IMAGE_CHECK_LIB_DIR)");
    }
    println!("cargo:rustc-link-search=native={}", dir.display());
    println!("cargo:rustc-link-lib=static=image_check");
}
