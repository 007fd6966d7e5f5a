//! Stand-in for `thiserror`: the derive gives an enum `Display` (by its `Debug`), `Error`, and
//! `From` for each case whose only field is marked `#[from]`. Message texts are dropped, as the
//! oracle tells refusals apart by case and field, never by `Display`.

use proc_macro::{Delimiter, Group, TokenStream, TokenTree};

#[proc_macro_derive(Error, attributes(error, from, source))]
pub fn error(item: TokenStream) -> TokenStream {
    let (name, body) = enum_parts(item);
    let mut code = format!(
        "impl ::std::fmt::Display for {name} {{
            fn fmt(&self, f: &mut ::std::fmt::Formatter<'_>) -> ::std::fmt::Result {{
                ::std::fmt::Debug::fmt(self, f)
            }}
        }}
        impl ::std::error::Error for {name} {{}}"
    );
    for (case, field) in from_cases(body) {
        code += &format!(
            "impl ::std::convert::From<{field}> for {name} {{
                fn from(inner: {field}) -> Self {{ Self::{case}(inner) }}
            }}"
        );
    }
    code.parse().expect("the derived code is Rust")
}

/// The name of an enum, and what stands between its braces.
fn enum_parts(item: TokenStream) -> (String, TokenStream) {
    let mut trees = item.into_iter();
    trees
        .find(|tree| tree.to_string() == "enum")
        .expect("`Error` is derived for enums only");
    let name = trees.next().expect("an enum has a name").to_string();
    let body = trees.find_map(|tree| group_in(tree, Delimiter::Brace));
    (name, body.expect("an enum has a body").stream())
}

/// Each case with a field marked `#[from]`, and that field's type.
fn from_cases(body: TokenStream) -> Vec<(String, String)> {
    let mut found = Vec::new();
    let mut last_name = String::new();
    for tree in body {
        if let TokenTree::Ident(name) = &tree {
            last_name = name.to_string();
        }
        let field = group_in(tree, Delimiter::Parenthesis).and_then(from_field);
        found.extend(field.map(|field| (last_name.clone(), field)));
    }
    found
}

/// The type in `(#[from] Type)`.
fn from_field(fields: Group) -> Option<String> {
    let mut trees = fields.stream().into_iter();
    if trees.next()?.to_string() != "#" || trees.next()?.to_string() != "[from]" {
        return None;
    }
    Some(trees.collect::<TokenStream>().to_string())
}

fn group_in(tree: TokenTree, delimiter: Delimiter) -> Option<Group> {
    match tree {
        TokenTree::Group(group) if group.delimiter() == delimiter => Some(group),
        _ => None,
    }
}
