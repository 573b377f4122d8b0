//! The derive macros of `strum` and `zerocopy` that rav1d's text asks for.

use proc_macro::{Delimiter, TokenStream, TokenTree};

/// What a derive macro is given: the type's name, its `#[repr(..)]` and the text of its body.
struct Item {
    name: String,
    repr: Option<String>,
    body: TokenStream,
}

fn item(input: TokenStream) -> Item {
    let (mut name, mut repr, mut body) = (String::new(), None, TokenStream::new());
    let mut last = String::new();
    for tree in input {
        match &tree {
            TokenTree::Group(g) if g.delimiter() == Delimiter::Bracket => {
                let text = g.stream().to_string().replace(' ', "");
                let named = text.strip_prefix("repr(").and_then(|r| r.strip_suffix(')'));
                repr = named.map(String::from).or(repr);
            }
            TokenTree::Group(g) if g.delimiter() == Delimiter::Brace => body = g.stream(),
            TokenTree::Ident(word) if last == "enum" || last == "struct" => name = word.to_string(),
            _ => {}
        }
        last = tree.to_string();
    }
    Item { name, repr, body }
}

/// The variants of an enum without fields, in order.
fn variants(body: TokenStream) -> Vec<String> {
    let mut names = vec![];
    let mut starts = true;
    for tree in body {
        match tree {
            TokenTree::Ident(word) if starts => {
                names.push(word.to_string());
                starts = false;
            }
            TokenTree::Punct(p) if p.as_char() == ',' => starts = true,
            _ => {}
        }
    }
    names
}

/// `from_repr`: the variant of a number, which is of the enum's own `repr`, or else a `usize`.
#[proc_macro_derive(FromRepr)]
pub fn from_repr(input: TokenStream) -> TokenStream {
    let Item { name, repr, body } = item(input);
    let repr = repr.unwrap_or("usize".into());
    let arms: String = variants(body)
        .iter()
        .map(|v| format!("if n == Self::{v} as {repr} {{ return Some(Self::{v}); }}"))
        .collect();
    format!("impl {name} {{ pub const fn from_repr(n: {repr}) -> Option<Self> {{ {arms} None }} }}")
        .parse()
        .unwrap()
}

#[proc_macro_derive(EnumCount)]
pub fn enum_count(input: TokenStream) -> TokenStream {
    let Item { name, body, .. } = item(input);
    let count = variants(body).len();
    format!("impl {name} {{ pub const COUNT: usize = {count}; }}")
        .parse()
        .unwrap()
}

fn implement(of: &str, input: TokenStream) -> TokenStream {
    format!("impl zerocopy::{of} for {} {{}}", item(input).name)
        .parse()
        .unwrap()
}

#[proc_macro_derive(FromZeroes)]
pub fn from_zeroes(input: TokenStream) -> TokenStream {
    implement("FromZeroes", input)
}

#[proc_macro_derive(FromBytes)]
pub fn from_bytes(input: TokenStream) -> TokenStream {
    implement("FromBytes", input)
}

#[proc_macro_derive(AsBytes)]
pub fn as_bytes(input: TokenStream) -> TokenStream {
    implement("AsBytes", input)
}
