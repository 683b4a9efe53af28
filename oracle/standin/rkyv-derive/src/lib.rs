//! Stand-in for rkyv's derives: they make nothing.
use proc_macro::TokenStream;

#[proc_macro_derive(Archive)]
pub fn archive(_: TokenStream) -> TokenStream {
    TokenStream::new()
}

#[proc_macro_derive(Serialize)]
pub fn serialize(_: TokenStream) -> TokenStream {
    TokenStream::new()
}

#[proc_macro_derive(Deserialize)]
pub fn deserialize(_: TokenStream) -> TokenStream {
    TokenStream::new()
}
