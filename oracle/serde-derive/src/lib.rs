//! `#[derive(serde::Deserialize)]` as formatter.rs writes it, giving a body that is never run.
use proc_macro::{TokenStream, TokenTree};

#[proc_macro_derive(Deserialize, attributes(serde))]
pub fn deserialize(item: TokenStream) -> TokenStream {
    let mut words = item.into_iter().filter_map(|tree| match tree {
        TokenTree::Ident(word) => Some(word.to_string()),
        _ => None,
    });
    words.find(|word| word == "struct").expect("a struct");
    let name = words.next().expect("its name");
    format!(
        "impl<'de> serde::de::Deserialize<'de> for {name} {{
            fn deserialize<D: serde::Deserializer<'de>>(_: D) -> Result<Self, D::Error> {{ unreachable!() }}
        }}"
    )
    .parse()
    .unwrap()
}
