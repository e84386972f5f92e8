//! Copies tinymap's lib.rs and range.rs and puts the stand-ins beside them.
#[path = "../../build/source.rs"]
mod source;

use std::path::Path;

fn main() {
    let from = source::root().join("boomerang_tinymap/src");
    let to = source::out().join("src");
    for file in ["lib.rs", "range.rs"] {
        source::copy(&from.join(file), &to.join(file));
    }
    for file in ["dense_map.rs", "error.rs", "handle.rs", "sparse_map.rs", "tiny_vec.rs"] {
        source::copy(&Path::new("src").join(file), &to.join(file));
    }
    std::fs::write(source::out().join("README.md"), "").expect("a writable build directory");
    source::declare("modules.rs", &[("original", &to.join("lib.rs"))]);
}
