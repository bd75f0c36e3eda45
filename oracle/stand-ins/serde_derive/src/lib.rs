//! Stand-in for serde's derives: both traits are markers, so each derive is one empty impl.

use proc_macro::{TokenStream, TokenTree};

/// The name after `struct` or `enum`. No deriving type of the sources has parameters.
fn name(item: TokenStream) -> String {
    let mut tokens = item.into_iter();
    for token in tokens.by_ref() {
        if let TokenTree::Ident(word) = token
            && matches!(word.to_string().as_str(), "struct" | "enum")
        {
            break;
        }
    }
    tokens.next().expect("a name follows").to_string()
}

fn marker(trait_name: &str, item: TokenStream) -> TokenStream {
    format!("impl serde::{trait_name} for {} {{}}", name(item))
        .parse()
        .expect("an impl")
}

#[proc_macro_derive(Serialize)]
pub fn serialize(item: TokenStream) -> TokenStream {
    marker("Serialize", item)
}

#[proc_macro_derive(Deserialize)]
pub fn deserialize(item: TokenStream) -> TokenStream {
    marker("Deserialize", item)
}
