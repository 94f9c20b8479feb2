//! `#[derive(TryFromPrimitive)]` for a fieldless `repr(u8)` enum in which every variant has a discriminant.
//! An enum of another shape stops the build.

use proc_macro::{Delimiter, TokenStream, TokenTree};

#[proc_macro_derive(TryFromPrimitive)]
pub fn derive(input: TokenStream) -> TokenStream {
    let mut tokens = input.into_iter();
    tokens
        .find(|t| matches!(t, TokenTree::Ident(i) if i.to_string() == "enum"))
        .expect("TryFromPrimitive is for enums");
    let name = tokens.next().expect("the enum's name").to_string();
    let body = match tokens.next() {
        Some(TokenTree::Group(g)) if g.delimiter() == Delimiter::Brace => g.stream(),
        _ => panic!("{name}: the enum's body is expected after its name"),
    };

    let mut arms = String::new();
    let mut body = body.into_iter().peekable();
    while let Some(token) = body.next() {
        match token {
            // An attribute: `#` and its bracket.
            TokenTree::Punct(p) if p.as_char() == '#' => {
                body.next();
            }
            TokenTree::Ident(variant) => {
                match (body.next(), body.next()) {
                    (Some(TokenTree::Punct(p)), Some(TokenTree::Literal(value))) if p.as_char() == '=' => {
                        arms.push_str(&format!("{value} => Ok(Self::{variant}),"));
                    }
                    _ => panic!("{name}::{variant} has no plain discriminant"),
                }
                match body.next() {
                    None => {}
                    Some(TokenTree::Punct(p)) if p.as_char() == ',' => {}
                    Some(other) => panic!("{name}::{variant}: unexpected {other}"),
                }
            }
            other => panic!("{name}: unexpected {other}"),
        }
    }

    format!(
        "impl ::num_enum::TryFromPrimitive for {name} {{
            fn try_from_primitive(number: u8) -> Result<Self, ::num_enum::TryFromPrimitiveError> {{
                match number {{ {arms} _ => Err(::num_enum::TryFromPrimitiveError(number)) }}
            }}
        }}
        impl ::core::convert::TryFrom<u8> for {name} {{
            type Error = ::num_enum::TryFromPrimitiveError;
            fn try_from(number: u8) -> Result<Self, Self::Error> {{
                <Self as ::num_enum::TryFromPrimitive>::try_from_primitive(number)
            }}
        }}"
    )
    .parse()
    .expect("the derived text is Rust")
}
