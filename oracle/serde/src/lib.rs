//! A stand-in for the crate serde: the derive macro `Serialize`, which adds nothing.
//!
//! The original derives it for a record of statistics that no command of the oracle reads.

use proc_macro::TokenStream;

#[proc_macro_derive(Serialize)]
pub fn serialize(_item: TokenStream) -> TokenStream {
    TokenStream::new()
}
