//! The derives of strum and serde that the compared files name, for enums whose variants hold
//! nothing. They read the tokens by hand, so that no crate of a registry is needed.

use proc_macro::{Delimiter, Group, TokenStream, TokenTree};

struct Enum {
    name: String,
    variants: Vec<Variant>,
}

struct Variant {
    name: String,
    /// The string literal of `#[strum(serialize = "..")]`, with its quotes; else the name, quoted.
    text: String,
}

/// `X::from_repr(u8) -> Option<X>`.
#[proc_macro_derive(FromRepr)]
pub fn from_repr(item: TokenStream) -> TokenStream {
    let item = read_enum(item);
    let tests = item.each(|v| {
        format!(
            "if discriminant == Self::{0} as u8 {{ return Some(Self::{0}); }}",
            v.name
        )
    });
    let name = &item.name;
    rust(format!(
        "impl {name} {{ pub const fn from_repr(discriminant: u8) -> Option<Self> {{ {tests} None }} }}"
    ))
}

/// `strum::IntoEnumIterator`.
#[proc_macro_derive(EnumIter)]
pub fn enum_iter(item: TokenStream) -> TokenStream {
    let item = read_enum(item);
    let all = item.each(|v| format!("Self::{},", v.name));
    let (name, count) = (&item.name, item.variants.len());
    rust(format!(
        "impl ::strum::IntoEnumIterator for {name} {{
            type Iterator = ::core::array::IntoIter<Self, {count}>;
            fn iter() -> Self::Iterator {{ [{all}].into_iter() }}
        }}"
    ))
}

/// `core::fmt::Display`, by the variants' texts.
#[proc_macro_derive(Display, attributes(strum))]
pub fn display(item: TokenStream) -> TokenStream {
    let item = read_enum(item);
    let (name, arms) = (&item.name, item.arms());
    rust(format!(
        "impl ::core::fmt::Display for {name} {{
            fn fmt(&self, f: &mut ::core::fmt::Formatter<'_>) -> ::core::fmt::Result {{ f.pad(match *self {{ {arms} }}) }}
        }}"
    ))
}

/// `From<X> for &'static str`, by the variants' texts.
#[proc_macro_derive(IntoStaticStr, attributes(strum))]
pub fn into_static_str(item: TokenStream) -> TokenStream {
    let item = read_enum(item);
    let (name, arms) = (&item.name, item.arms().replace("Self::", &format!("{}::", item.name)));
    rust(format!(
        "impl ::core::convert::From<{name}> for &'static str {{
            fn from(x: {name}) -> &'static str {{ match x {{ {arms} }} }}
        }}"
    ))
}

#[proc_macro_derive(Serialize, attributes(serde))]
pub fn serialize(_: TokenStream) -> TokenStream {
    TokenStream::new()
}

#[proc_macro_derive(Deserialize, attributes(serde))]
pub fn deserialize(_: TokenStream) -> TokenStream {
    TokenStream::new()
}

impl Enum {
    fn each(&self, text: impl Fn(&Variant) -> String) -> String {
        self.variants.iter().map(text).collect()
    }

    /// The arms of a `match` from variant to text.
    fn arms(&self) -> String {
        self.each(|v| format!("Self::{} => {},", v.name, v.text))
    }
}

fn rust(text: String) -> TokenStream {
    text.parse().expect("a derive wrote Rust that does not parse")
}

/// Reads `enum NAME { .. }`, passing over what stands before it.
fn read_enum(item: TokenStream) -> Enum {
    let mut tokens = item.into_iter();
    tokens
        .by_ref()
        .find(|token| is_ident(token, "enum"))
        .expect("only an enum has this derive");
    let name = tokens.next().expect("an enum has a name").to_string();
    let body = tokens
        .find_map(|token| group(token, Delimiter::Brace))
        .expect("an enum has a body");
    Enum {
        name,
        variants: read_variants(body.stream()),
    }
}

fn read_variants(body: TokenStream) -> Vec<Variant> {
    let mut variants = Vec::new();
    let mut text = None;
    let mut tokens = body.into_iter();
    while let Some(token) = tokens.next() {
        match token {
            TokenTree::Punct(p) if p.as_char() == '#' => {
                let attribute = tokens.next().and_then(|t| group(t, Delimiter::Bracket));
                text = text.or(attribute.and_then(serialized_text));
            }
            TokenTree::Ident(name) => {
                let name = name.to_string();
                let text = text.take().unwrap_or_else(|| format!("{name:?}"));
                variants.push(Variant { name, text });
                skip_discriminant(&mut tokens);
            }
            other => panic!("unexpected in an enum: {other}"),
        }
    }
    variants
}

/// Passes over `= NUMBER ,`; a variant that holds something is refused.
fn skip_discriminant(tokens: &mut impl Iterator<Item = TokenTree>) {
    for token in tokens {
        match token {
            TokenTree::Punct(p) if p.as_char() == ',' => return,
            TokenTree::Group(_) => panic!("a variant that holds something has none of these derives"),
            _ => {}
        }
    }
}

/// The literal of `strum(serialize = "..")`.
fn serialized_text(attribute: Group) -> Option<String> {
    let mut tokens = attribute.stream().into_iter();
    tokens.next().filter(|token| is_ident(token, "strum"))?;
    let inner = group(tokens.next()?, Delimiter::Parenthesis)?;
    let mut tokens = inner.stream().into_iter();
    tokens.next().filter(|token| is_ident(token, "serialize"))?;
    tokens.find_map(|token| match token {
        TokenTree::Literal(text) => Some(text.to_string()),
        _ => None,
    })
}

fn is_ident(token: &TokenTree, name: &str) -> bool {
    matches!(token, TokenTree::Ident(ident) if ident.to_string() == name)
}

fn group(token: TokenTree, delimiter: Delimiter) -> Option<Group> {
    match token {
        TokenTree::Group(group) if group.delimiter() == delimiter => Some(group),
        _ => None,
    }
}
