//! A derive with the name of a standard one. For a struct with named fields it emits the
//! standard `Clone` and, for each private field, a reader `field_NAME` and a writer
//! `field_NAME_mut`; for an enum, which in the sources is `Copy`, the standard `Clone` alone.

use proc_macro::{Delimiter, TokenStream, TokenTree};

struct Field {
    name: String,
    kind: String,
    public: bool,
}

/// Splits the text between a struct's braces at the commas outside angle brackets.
fn fields(body: TokenStream) -> Vec<Field> {
    let mut all = Vec::new();
    let mut words: Vec<TokenTree> = Vec::new();
    let mut depth = 0;
    for token in body {
        match &token {
            TokenTree::Punct(p) if p.as_char() == '<' => depth += 1,
            TokenTree::Punct(p) if p.as_char() == '>' => depth -= 1,
            TokenTree::Punct(p) if p.as_char() == ',' && depth == 0 => {
                all.extend(field(std::mem::take(&mut words)));
                continue;
            }
            _ => {}
        }
        words.push(token);
    }
    all.extend(field(words));
    all
}

fn field(words: Vec<TokenTree>) -> Option<Field> {
    let colon = words
        .iter()
        .position(|t| matches!(t, TokenTree::Punct(p) if p.as_char() == ':'))?;
    let kind: TokenStream = words[colon + 1..].iter().cloned().collect();
    Some(Field {
        name: words[colon - 1].to_string(),
        kind: kind.to_string(),
        public: words[..colon].iter().any(|t| t.to_string() == "pub"),
    })
}

fn for_struct(name: &str, fields: &[Field]) -> String {
    let clones: String = fields
        .iter()
        .map(|f| format!("{0}: ::core::clone::Clone::clone(&self.{0}),", f.name))
        .collect();
    let readers: String = fields
        .iter()
        .filter(|f| !f.public)
        .map(|f| {
            format!(
                "pub fn field_{0}(&self) -> &{1} {{ &self.{0} }}
                 pub fn field_{0}_mut(&mut self) -> &mut {1} {{ &mut self.{0} }}",
                f.name, f.kind
            )
        })
        .collect();
    format!(
        "impl ::core::clone::Clone for {name} {{
             fn clone(&self) -> Self {{ {name} {{ {clones} }} }}
         }}
         impl {name} {{ {readers} }}"
    )
}

#[proc_macro_derive(Clone)]
pub fn clone(item: TokenStream) -> TokenStream {
    let mut words = item.into_iter().skip_while(
        |t| !matches!(t, TokenTree::Ident(w) if matches!(w.to_string().as_str(), "struct" | "enum")),
    );
    let is_struct = words.next().is_some_and(|w| w.to_string() == "struct");
    let name = words.next().expect("a name follows").to_string();
    let body = words.find_map(|t| match t {
        TokenTree::Group(g) if g.delimiter() == Delimiter::Brace => Some(g.stream()),
        _ => None,
    });
    let text = if is_struct {
        for_struct(&name, &fields(body.expect("named fields")))
    } else {
        format!("impl ::core::clone::Clone for {name} {{ fn clone(&self) -> Self {{ *self }} }}")
    };
    text.parse().expect("impls")
}
