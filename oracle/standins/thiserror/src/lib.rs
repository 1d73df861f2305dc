//! Stands in for thiserror. The sentences are dropped: the comparison is of the cases and their fields.

use proc_macro::{TokenStream, TokenTree};

#[proc_macro_derive(Error, attributes(error))]
pub fn error(input: TokenStream) -> TokenStream {
    let mut tokens = input.into_iter();
    let name = loop {
        match tokens.next() {
            Some(TokenTree::Ident(i)) if i.to_string() == "enum" => break tokens.next().expect("a name after enum"),
            Some(_) => {}
            None => panic!("no enum"),
        }
    };
    format!(
        "impl ::std::fmt::Display for {name} {{
            fn fmt(&self, f: &mut ::std::fmt::Formatter<'_>) -> ::std::fmt::Result {{ ::std::fmt::Debug::fmt(self, f) }}
        }}
        impl ::std::error::Error for {name} {{}}"
    )
    .parse()
    .unwrap()
}
