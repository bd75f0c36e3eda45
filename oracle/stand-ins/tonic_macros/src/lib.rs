//! Stand-in for tonic's attribute. The impl stays as it is; beside it comes a child module with
//! the text of the crate's `src/inside.rs`, which so sees the private items of the file.

use proc_macro::TokenStream;

#[proc_macro_attribute]
pub fn async_trait(_: TokenStream, item: TokenStream) -> TokenStream {
    let inside = r#"
        pub mod inside {
            include!(concat!(env!("CARGO_MANIFEST_DIR"), "/src/inside.rs"));
        }
    "#;
    let mut all = item;
    all.extend(inside.parse::<TokenStream>().expect("a module"));
    all
}
