//! Stand-in for the `thiserror` crate: a derive `Error` with just what the given files ask of it.
//!
//! It writes `From` for every `#[from]` field, and `Display` and `Error` from `Debug`.
//! The texts in `#[error("..")]` are not used: the oracle looks at the variants only.
extern crate proc_macro;

use proc_macro::{Delimiter, TokenStream, TokenTree};

#[proc_macro_derive(Error, attributes(error, from, source))]
pub fn derive_error(input: TokenStream) -> TokenStream {
    let mut tokens = input.into_iter();
    let mut name = String::new();
    let mut body = TokenStream::new();
    while let Some(token) = tokens.next() {
        match token {
            TokenTree::Ident(word) if word.to_string() == "enum" => {
                name = tokens.next().expect("the enum's name").to_string();
            }
            TokenTree::Group(group) if !name.is_empty() && group.delimiter() == Delimiter::Brace => {
                body = group.stream();
            }
            _ => {}
        }
    }
    assert!(!name.is_empty(), "the given files derive Error on enums only");
    let mut out = format!(
        "impl ::core::fmt::Display for {name} {{
            fn fmt(&self, f: &mut ::core::fmt::Formatter<'_>) -> ::core::fmt::Result {{
                ::core::fmt::Debug::fmt(self, f)
            }}
        }}
        impl ::core::error::Error for {name} {{}}"
    );
    // A variant with one field is `Name ( #[from] Type )`.
    let mut variant = String::new();
    for token in body {
        match token {
            TokenTree::Ident(word) => variant = word.to_string(),
            TokenTree::Group(group) if group.delimiter() == Delimiter::Parenthesis => {
                if let Some(kind) = from_type(group.stream()) {
                    out += &format!(
                        "impl ::core::convert::From<{kind}> for {name} {{
                            fn from(inner: {kind}) -> Self {{ Self::{variant}(inner) }}
                        }}"
                    );
                }
            }
            _ => {}
        }
    }
    out.parse().expect("the derived code is Rust")
}

/// The type after `#[from]`, if the field has that attribute.
fn from_type(field: TokenStream) -> Option<String> {
    let mut tokens = field.into_iter();
    let TokenTree::Punct(hash) = tokens.next()? else { return None };
    let TokenTree::Group(attribute) = tokens.next()? else { return None };
    let is_from = hash.as_char() == '#' && attribute.stream().to_string() == "from";
    is_from.then(|| tokens.collect::<TokenStream>().to_string())
}
