//! Copies boomerang_runtime's schema.rs and view.rs.
#[path = "../../build/source.rs"]
mod source;

fn main() {
    let from = source::root().join("boomerang_runtime/src/image");
    let to = source::out();
    for file in ["schema.rs", "view.rs"] {
        source::copy(&from.join(file), &to.join(file));
    }
    let (schema, view) = (to.join("schema.rs"), to.join("view.rs"));
    source::declare("modules.rs", &[("schema", &schema), ("view", &view)]);
}
