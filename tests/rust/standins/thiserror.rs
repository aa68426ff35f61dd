//! Stands in for thiserror: a derive that makes nothing. The messages of errors are not compared, and the conversions that
//! `#[from]` would make are written by hand in `gix_ref/errors.rs`.

extern crate proc_macro;

#[proc_macro_derive(Error, attributes(error, from, source))]
pub fn error(_: proc_macro::TokenStream) -> proc_macro::TokenStream {
    proc_macro::TokenStream::new()
}
