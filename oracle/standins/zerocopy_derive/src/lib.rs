//! The derives of the zerocopy stand-in. The layout is not looked at: the two types that use them are words.

use proc_macro::{TokenStream, TokenTree};

fn named(input: TokenStream) -> String {
    let mut tokens = input.into_iter();
    while let Some(t) = tokens.next() {
        if let TokenTree::Ident(i) = &t {
            if i.to_string() == "struct" {
                return tokens.next().expect("a name after struct").to_string();
            }
        }
    }
    panic!("no struct")
}

#[proc_macro_derive(FromBytes)]
pub fn from_bytes(input: TokenStream) -> TokenStream {
    let n = named(input);
    format!("unsafe impl ::zerocopy::FromZeros for {n} {{}} unsafe impl ::zerocopy::FromBytes for {n} {{}}").parse().unwrap()
}

#[proc_macro_derive(IntoBytes)]
pub fn into_bytes(input: TokenStream) -> TokenStream {
    format!("unsafe impl ::zerocopy::IntoBytes for {} {{}}", named(input)).parse().unwrap()
}

#[proc_macro_derive(Immutable)]
pub fn immutable(_: TokenStream) -> TokenStream {
    TokenStream::new()
}

#[proc_macro_derive(KnownLayout)]
pub fn known_layout(_: TokenStream) -> TokenStream {
    TokenStream::new()
}
