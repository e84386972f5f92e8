//! Copies schema.rs and view.rs, and adds to the copy of view.rs one function that calls `valid_id`.
#[path = "../../build/source.rs"]
mod source;

use std::fs::OpenOptions;
use std::io::Write;

const ADDED: &str = "
#[inline(never)]
pub fn call_valid_id(value: &str) -> bool {
    valid_id(value)
}
";

fn main() {
    let from = source::root().join("boomerang_runtime/src/image");
    let to = source::out();
    for file in ["schema.rs", "view.rs"] {
        source::copy(&from.join(file), &to.join(file));
    }
    let (schema, view) = (to.join("schema.rs"), to.join("view.rs"));
    let mut copied = OpenOptions::new().append(true).open(&view).expect("the copy");
    copied.write_all(ADDED.as_bytes()).expect("a writable build directory");
    source::declare("modules.rs", &[("schema", &schema), ("view", &view)]);
}
