//! A derive `Eq` that shadows the usual one inside the `keri` stand-in crate.
//!
//! `KeyStateSnapshot` has private fields and a KS record may bring a state that no fold
//! reaches. state.rs must stay as given, so the constructor comes from this derive: beside
//! `Eq` it gives the snapshot a `from_parts` that takes every field in order.
extern crate proc_macro;

use proc_macro::{Delimiter, TokenStream, TokenTree};

#[proc_macro_derive(Eq)]
pub fn derive_eq(input: TokenStream) -> TokenStream {
    let mut tokens = input.into_iter().peekable();
    let mut name = String::new();
    let mut generics = String::new();
    let mut body = None;
    while let Some(token) = tokens.next() {
        match token {
            TokenTree::Ident(word) if matches!(word.to_string().as_str(), "struct" | "enum") => {
                name = tokens.next().expect("a name").to_string();
                // The only generics in that crate are lifetimes: copied as they stand.
                let mut part = TokenStream::new();
                while let Some(next) = tokens.next_if(|t| !matches!(t, TokenTree::Group(_))) {
                    part.extend([next]);
                }
                generics = part.to_string();
            }
            TokenTree::Group(group) if !name.is_empty() && group.delimiter() == Delimiter::Brace => {
                body = Some(group.stream());
            }
            _ => {}
        }
    }
    let mut out = format!("impl {generics} ::core::cmp::Eq for {name} {generics} {{}}");
    if name == "KeyStateSnapshot" {
        let fields = body.expect("the snapshot has fields");
        let names = field_names(fields.clone()).join(", ");
        // Fields without attributes and visibility read like a parameter list.
        out += &format!(
            "impl {name} {{
                /// A snapshot of any shape: what a KS record brings.
                #[allow(clippy::too_many_arguments)]
                pub fn from_parts({fields}) -> Self {{ Self {{ {names} }} }}
            }}"
        );
    }
    out.parse().expect("the derived code is Rust")
}

/// The words that stand first or after a comma outside of angle brackets.
fn field_names(fields: TokenStream) -> Vec<String> {
    let mut names = Vec::new();
    let mut depth = 0;
    let mut first = true;
    for token in fields {
        match &token {
            TokenTree::Punct(mark) if mark.as_char() == '<' => depth += 1,
            TokenTree::Punct(mark) if mark.as_char() == '>' => depth -= 1,
            TokenTree::Punct(mark) if mark.as_char() == ',' && depth == 0 => first = true,
            TokenTree::Ident(word) if first => {
                names.push(word.to_string());
                first = false;
            }
            _ => {}
        }
    }
    names
}
