//! Stand-in for `#[async_trait]`. In the body of a trait or an impl, each `async fn f(&self, ..) -> R` becomes
//! `fn f<'a>(&'a self, ..) -> Pin<Box<dyn Future<Output = R> + Send + 'a>>`, and its block `Box::pin(async move { .. })`.
use proc_macro::{Delimiter, Group, TokenStream, TokenTree};

#[proc_macro_attribute]
pub fn async_trait(_: TokenStream, item: TokenStream) -> TokenStream {
    item.into_iter()
        .map(|t| match t {
            TokenTree::Group(g) if g.delimiter() == Delimiter::Brace => braces(body(g.stream())),
            other => other,
        })
        .collect()
}

fn body(items: TokenStream) -> TokenStream {
    let mut out = TokenStream::new();
    let mut rest = items.into_iter();
    while let Some(token) = rest.next() {
        if token.to_string() != "async" {
            out.extend([token]);
            continue;
        }
        let (function, name) = (rest.next().unwrap(), rest.next().unwrap());
        let Some(TokenTree::Group(parameters)) = rest.next() else { panic!("parameters of {name}") };
        let parameters = parameters.stream().to_string().replacen("& self", "&self", 1).replacen("&self", "&'a self", 1);
        let mut result = TokenStream::new();
        let end = loop {
            match rest.next().unwrap() {
                TokenTree::Group(g) if g.delimiter() == Delimiter::Brace => break Some(g),
                TokenTree::Punct(p) if p.as_char() == ';' => break None,
                token => result.extend([token]),
            }
        };
        let result = result.to_string().replacen("->", "", 1).replacen("- >", "", 1);
        let head = format!(
            "{function} {name}<'a>({parameters})
            -> ::std::pin::Pin<::std::boxed::Box<dyn ::std::future::Future<Output = {result}> + ::std::marker::Send + 'a>>"
        );
        out.extend(tokens(&head));
        match end {
            None => out.extend(tokens(";")),
            Some(block) => {
                let mut call = tokens("async move");
                call.extend([TokenTree::Group(block)]);
                let mut pinned = tokens("::std::boxed::Box::pin");
                pinned.extend([TokenTree::Group(Group::new(Delimiter::Parenthesis, call))]);
                out.extend([braces(pinned)]);
            }
        }
    }
    out
}

fn braces(inside: TokenStream) -> TokenTree {
    TokenTree::Group(Group::new(Delimiter::Brace, inside))
}

fn tokens(text: &str) -> TokenStream {
    text.parse().unwrap()
}
