//! Stand-in for thiserror's derive: an error displays as it debugs, and has no source. Nothing here reads the text.
use proc_macro::{TokenStream, TokenTree};

#[proc_macro_derive(Error, attributes(error, source, from))]
pub fn error(item: TokenStream) -> TokenStream {
    let tokens: Vec<TokenTree> = item.into_iter().collect();
    let at = tokens.iter().position(|t| t.to_string() == "enum").expect("an enum");
    let name = tokens[at + 1].to_string();
    format!(
        "impl ::std::fmt::Display for {name} {{
            fn fmt(&self, f: &mut ::std::fmt::Formatter) -> ::std::fmt::Result {{ ::std::fmt::Debug::fmt(self, f) }}
        }}
        impl ::std::error::Error for {name} {{}}"
    )
    .parse()
    .unwrap()
}
