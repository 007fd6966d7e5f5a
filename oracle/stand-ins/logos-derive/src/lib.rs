//! The derive behind the stand-in for `logos`. It accepts the attributes that describe the tokens
//! and passes over them: the rules stand in `logos/src/rules.rs`. What it adds to the token enum
//! is the way from a match of those rules to the enum's case of the same name.

use proc_macro::TokenStream;

#[proc_macro_derive(Logos, attributes(logos, regex, token))]
pub fn logos(item: TokenStream) -> TokenStream {
    let mut trees = item.into_iter();
    trees
        .find(|tree| tree.to_string() == "enum")
        .expect("`Logos` is derived for enums only");
    let name = trees.next().expect("an enum has a name");
    let code = format!(
        "impl ::logos::Logos for {name} {{
            fn from_match(found: ::logos::Match<'_>) -> Self {{
                match found {{
                    ::logos::Match::Register(name) => Self::Register(name.to_string()),
                    ::logos::Match::Identifier(name) => Self::Identifier(name.to_string()),
                    ::logos::Match::Number(value) => Self::Number(value),
                    ::logos::Match::Hex(value) => Self::Hex(value),
                    ::logos::Match::Binary(value) => Self::Binary(value),
                    ::logos::Match::Directive(name) => Self::Directive(name.to_string()),
                    ::logos::Match::Comma => Self::Comma,
                    ::logos::Match::Colon => Self::Colon,
                    ::logos::Match::LParen => Self::LParen,
                    ::logos::Match::RParen => Self::RParen,
                }}
            }}
        }}"
    );
    code.parse().expect("the derived code is Rust")
}
