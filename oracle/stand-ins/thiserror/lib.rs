//! Stand-in for thiserror: accepts `#[error(..)]` and emits nothing.
use proc_macro::TokenStream;

#[proc_macro_derive(Error, attributes(error))]
pub fn derive_error(_: TokenStream) -> TokenStream {
    TokenStream::new()
}
