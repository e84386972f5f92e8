//! Stand-in for document-features: an empty text.
#[macro_export]
macro_rules! document_features {
    () => {
        ""
    };
}
