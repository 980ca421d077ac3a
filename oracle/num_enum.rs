//! A stand-in for the one derive of the crate num_enum that the Rust uses: `TryFromPrimitive` for an enum without fields whose variants name their
//! numbers, with `#[repr(..)]`. The error is the number itself; the Rust drops it in each case.
extern crate proc_macro;

use proc_macro::{TokenStream, TokenTree};

/// The text of a token.
fn text(token: Option<&TokenTree>) -> String {
    token.map(TokenTree::to_string).unwrap_or_default()
}

/// The tokens inside the next group.
fn inside(token: Option<&TokenTree>) -> Vec<TokenTree> {
    match token {
        Some(TokenTree::Group(group)) => group.stream().into_iter().collect(),
        _ => Vec::new(),
    }
}

/// The number's type: what stands in `#[repr(..)]`.
fn primitive(item: &[TokenTree]) -> String {
    let attributes = item.iter().map(|token| inside(Some(token)));
    let repr = attributes.filter(|tokens| text(tokens.first()) == "repr");
    repr.map(|tokens| text(inside(tokens.get(1)).first())).next().expect("an enum with #[repr(..)]")
}

#[proc_macro_derive(TryFromPrimitive)]
pub fn try_from_primitive(input: TokenStream) -> TokenStream {
    let item: Vec<TokenTree> = input.into_iter().collect();
    let number = primitive(&item);
    let at = item.iter().position(|token| token.to_string() == "enum").expect("an enum");
    let name = text(item.get(at + 1));
    let body = inside(item.get(at + 2));
    let mut arms = String::new();
    for (i, token) in body.iter().enumerate() {
        if token.to_string() == "=" {
            arms += &format!("{} => Ok(Self::{}),", text(body.get(i + 1)), text(body.get(i - 1)));
        }
    }
    let code = format!(
        "impl ::core::convert::TryFrom<{number}> for {name} {{
            type Error = {number};
            fn try_from(number: {number}) -> Result<Self, {number}> {{ match number {{ {arms} _ => Err(number) }} }}
        }}"
    );
    code.parse().expect("an impl")
}
