//! Stands in for thiserror: the derive gives nothing. The texts of errors are not compared.
use proc_macro::TokenStream;

#[proc_macro_derive(Error, attributes(error))]
pub fn error(_: TokenStream) -> TokenStream {
    TokenStream::new()
}
