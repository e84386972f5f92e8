// Copies files of boomerang into a build directory and compares the copies.
use std::path::{Path, PathBuf};
use std::{env, fs};

/// The directory named by BOOMERANG_SRC; a relative path counts from the repository's root.
pub fn root() -> PathBuf {
    println!("cargo:rerun-if-env-changed=BOOMERANG_SRC");
    let named = env::var("BOOMERANG_SRC").unwrap_or_else(|_| "../shared/docs/src".into());
    let manifest = PathBuf::from(env::var("CARGO_MANIFEST_DIR").expect("run by cargo"));
    let repository = manifest.ancestors().nth(3).expect("three levels below the root");
    repository.join(named)
}

/// The build directory that takes the copies.
pub fn out() -> PathBuf {
    PathBuf::from(env::var("OUT_DIR").expect("run by cargo")).join("copy")
}

/// Copies `from` to `to` and stops the build unless both hold the same bytes.
pub fn copy(from: &Path, to: &Path) {
    println!("cargo:rerun-if-changed={}", from.display());
    fs::create_dir_all(to.parent().expect("a file in a directory")).expect("a build directory");
    let bytes = fs::read(from).unwrap_or_else(|fault| {
        panic!("{}: {fault} (BOOMERANG_SRC names boomerang's source)", from.display())
    });
    fs::write(to, &bytes).expect("a writable build directory");
    let copied = fs::read(to).expect("the copy");
    let source = fs::read(from).expect("the source");
    assert!(copied == source, "{} is no copy of {}", to.display(), from.display());
}

/// Writes Rust that declares `name` as the module in the copied file `path`.
pub fn declare(list: &str, modules: &[(&str, &Path)]) {
    let text: String = modules
        .iter()
        .map(|(name, path)| format!("#[path = {path:?}]\n#[allow(warnings)]\nmod {name};\n"))
        .collect();
    fs::write(out().join(list), text).expect("a writable build directory");
}
