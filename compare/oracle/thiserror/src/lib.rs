//! Stands for crate thiserror: its derive macro `Error`, with the attributes that the error types carry.
//! Assumed: the derive only adds `Display`, `std::error::Error` and `From`, none of which the decisions use. It adds nothing here.

use proc_macro::TokenStream;

#[proc_macro_derive(Error, attributes(error, from, source))]
pub fn derive_error(_item: TokenStream) -> TokenStream {
    TokenStream::new()
}
