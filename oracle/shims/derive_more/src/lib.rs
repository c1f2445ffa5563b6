//! Stand-in for `derive_more`: `Deref` to the one field, `Debug` as the type's name, `From` of the one
//! field of a struct or of each variant, `Add` and `Sub` of the one field; and postcard's `MaxSize`,
//! the sum over the fields.

mod item;

use proc_macro::TokenStream;

use item::{Body, Item};

#[proc_macro_derive(From)]
pub fn from(item: TokenStream) -> TokenStream {
    let item = Item::read(item);
    let sources = match &item.body {
        Body::Fields(fields) => vec![(one(fields), "Self".to_owned())],
        Body::Variants(variants) => variants
            .iter()
            .filter(|(_, fields)| fields.len() == 1)
            .map(|(name, fields)| (one(fields), format!("Self::{name}")))
            .collect(),
    };
    let implement = |(source, make): (String, String)| {
        let body = format!("fn from(value: {source}) -> Self {{ {make}(value) }}");
        item.implement(&format!("::std::convert::From<{source}>"), &body)
    };
    sources.into_iter().map(implement).collect()
}

#[proc_macro_derive(Add)]
pub fn add(item: TokenStream) -> TokenStream {
    operator(item, "Add", "add", "+")
}

#[proc_macro_derive(Sub)]
pub fn sub(item: TokenStream) -> TokenStream {
    operator(item, "Sub", "sub", "-")
}

/// An operator of a struct of one unnamed field.
fn operator(item: TokenStream, of: &str, name: &str, sign: &str) -> TokenStream {
    let body = format!(
        "type Output = Self; \
         fn {name}(self, other: Self) -> Self {{ Self(self.0 {sign} other.0) }}"
    );
    Item::read(item).implement(&format!("::std::ops::{of}"), &body)
}

#[proc_macro_derive(Deref)]
pub fn deref(item: TokenStream) -> TokenStream {
    let item = Item::read(item);
    let Body::Fields(fields) = &item.body else {
        panic!("Deref of a struct")
    };
    let (name, target) = &fields[0];
    let body = format!(
        "type Target = {target}; fn deref(&self) -> &Self::Target {{ &self.{} }}",
        name.as_deref().unwrap_or("0")
    );
    item.implement("::std::ops::Deref", &body)
}

#[proc_macro_derive(Debug, attributes(debug))]
pub fn debug(item: TokenStream) -> TokenStream {
    let item = Item::read(item);
    let body = format!(
        "fn fmt(&self, f: &mut ::std::fmt::Formatter) -> ::std::fmt::Result {{ \
            f.write_str({:?}) }}",
        item.name
    );
    item.implement("::std::fmt::Debug", &body)
}

#[proc_macro_derive(MaxSize)]
pub fn max_size(item: TokenStream) -> TokenStream {
    let of = "::postcard::experimental::max_size::MaxSize";
    let item = Item::read(item);
    let Body::Fields(fields) = &item.body else {
        panic!("MaxSize of a struct")
    };
    let sizes = fields
        .iter()
        .map(|(_, target)| format!("<{target} as {of}>::POSTCARD_MAX_SIZE"));
    let sizes: Vec<_> = sizes.collect();
    let body = format!("const POSTCARD_MAX_SIZE: usize = {};", sizes.join(" + "));
    item.implement(of, &body)
}

/// The type of the only field.
fn one(fields: &[item::Field]) -> String {
    assert_eq!(fields.len(), 1, "one field");
    fields[0].1.clone()
}
