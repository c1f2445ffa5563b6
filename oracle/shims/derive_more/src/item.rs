//! A struct or an enum, read from its tokens.

use proc_macro::{Delimiter, TokenStream, TokenTree};

/// The name of a field, if it has one, and its type.
pub type Field = (Option<String>, String);

pub enum Body {
    Fields(Vec<Field>),
    /// The name of each variant and its fields.
    Variants(Vec<(String, Vec<Field>)>),
}

pub struct Item {
    pub name: String,
    /// The names of the type parameters.
    parameters: Vec<String>,
    pub body: Body,
}

impl Item {
    pub fn read(item: TokenStream) -> Self {
        let mut tokens = item.into_iter();
        let word = tokens
            .by_ref()
            .map(|token| token.to_string())
            .find(|word| word == "struct" || word == "enum")
            .expect("a struct or an enum");
        let name = tokens.next().expect("a name").to_string();
        let mut rest: Vec<_> = tokens.collect();
        let place = rest.iter().position(is_body).expect("a body");
        let TokenTree::Group(group) = rest.remove(place) else {
            unreachable!("a body is a group")
        };
        let body = group.stream();
        Self {
            name,
            parameters: parameters(&rest[..place]),
            body: if word == "enum" {
                Body::Variants(parts(body).into_iter().map(variant).collect())
            } else {
                Body::Fields(parts(body).into_iter().map(field).collect())
            },
        }
    }

    pub fn implement(&self, of: &str, body: &str) -> TokenStream {
        let parameters = self.parameters.join(", ");
        let name = &self.name;
        format!("impl<{parameters}> {of} for {name}<{parameters}> {{ {body} }}")
            .parse()
            .expect("an impl")
    }
}

/// The fields of a struct or the variants of an enum.
fn is_body(token: &TokenTree) -> bool {
    match token {
        TokenTree::Group(group) => group.delimiter() != Delimiter::Bracket,
        _ => false,
    }
}

/// The first word of each part between the angle brackets.
fn parameters(tokens: &[TokenTree]) -> Vec<String> {
    let inner = tokens.get(1..tokens.len().saturating_sub(1));
    let inner: TokenStream = inner.unwrap_or_default().iter().cloned().collect();
    parts(inner)
        .into_iter()
        .map(|part| part[0].to_string())
        .collect()
}

/// What stands between commas, those inside angle brackets left out, each without its attributes.
fn parts(tokens: TokenStream) -> Vec<Vec<TokenTree>> {
    let mut parts = vec![Vec::new()];
    let mut depth = 0;
    for token in tokens {
        match token.to_string().as_str() {
            "<" => depth += 1,
            ">" => depth -= 1,
            _ => {}
        }
        if depth == 0 && token.to_string() == "," {
            parts.push(Vec::new());
        } else {
            parts.last_mut().expect("a part").push(token);
        }
    }
    let parts = parts.into_iter().map(without_attributes);
    parts.filter(|part| !part.is_empty()).collect()
}

/// An attribute is a `#` and a group.
fn without_attributes(mut part: Vec<TokenTree>) -> Vec<TokenTree> {
    while part.first().is_some_and(|token| token.to_string() == "#") {
        part.drain(..2);
    }
    part
}

fn variant(part: Vec<TokenTree>) -> (String, Vec<Field>) {
    let fields = match part.get(1) {
        Some(TokenTree::Group(group)) => parts(group.stream()).into_iter().map(field).collect(),
        _ => Vec::new(),
    };
    (part[0].to_string(), fields)
}

fn field(mut part: Vec<TokenTree>) -> Field {
    if part[0].to_string() == "pub" {
        let limited = matches!(&part[1], TokenTree::Group(group) if group.delimiter() == Delimiter::Parenthesis);
        part.drain(..if limited { 2 } else { 1 });
    }
    let named = part.len() > 2 && part[1].to_string() == ":" && is_alone(&part[2]);
    let name = named.then(|| part.drain(..2).next().expect("a name").to_string());
    (name, part.into_iter().collect::<TokenStream>().to_string())
}

/// Whether a colon before this token is no half of a path's two.
fn is_alone(token: &TokenTree) -> bool {
    token.to_string() != ":"
}
