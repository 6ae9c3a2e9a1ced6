//! The attribute `enum_dispatch`, as far as `addressing_modes.rs` uses it.
//!
//! On a trait it changes nothing. On an enum, `#[enum_dispatch(Trait)]` gives each bare variant
//! `Name` the contents `Name(Name)` and implements the trait by handing the call on to them.

use proc_macro::{Delimiter, Group, TokenStream, TokenTree};

/// The one method of each trait in use; both take `args: &mut Arguments`.
fn method_of(name: &str) -> &'static str {
    match name {
        "SourceWriter" => "write_source",
        "DestinationWriter" => "write_destination",
        _ => panic!("enum_dispatch: no method is known for the trait {name}"),
    }
}

#[proc_macro_attribute]
pub fn enum_dispatch(attribute: TokenStream, item: TokenStream) -> TokenStream {
    let of_trait = attribute.to_string();
    if of_trait.is_empty() {
        return item;
    }

    let mut tokens: Vec<TokenTree> = item.into_iter().collect();
    let Some(TokenTree::Group(body)) = tokens.pop() else {
        panic!("enum_dispatch: the enum has no body");
    };
    let Some(TokenTree::Ident(name)) = tokens.last() else {
        panic!("enum_dispatch: the enum has no name");
    };
    let (variants, body) = filled(body.stream());
    let dispatch = implementation(&name.to_string(), &of_trait, &variants);
    tokens.push(Group::new(Delimiter::Brace, body).into());
    tokens.into_iter().collect::<TokenStream>().into_iter().chain(dispatch).collect()
}

/// The variants' names, and the body with each bare variant given its contents.
fn filled(body: TokenStream) -> (Vec<String>, TokenStream) {
    let mut variants = Vec::new();
    let mut out = Vec::new();
    for token in body {
        let variant = match &token {
            TokenTree::Ident(name) => Some(name.clone()),
            _ => None,
        };
        out.push(token);
        if let Some(name) = variant {
            variants.push(name.to_string());
            let contents = TokenStream::from(TokenTree::Ident(name));
            out.push(Group::new(Delimiter::Parenthesis, contents).into());
        }
    }
    (variants, out.into_iter().collect())
}

fn implementation(name: &str, of_trait: &str, variants: &[String]) -> TokenStream {
    let method = method_of(of_trait);
    let arms: String = variants
        .iter()
        .map(|variant| format!("Self::{variant}(inner) => {of_trait}::{method}(inner, args),"))
        .collect();
    format!(
        "impl {of_trait} for {name} {{
            fn {method}(&self, args: &mut Arguments) {{ match self {{ {arms} }} }}
        }}"
    )
    .parse()
    .expect("the implementation is Rust")
}
