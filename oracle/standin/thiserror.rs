//! Stand-in for `thiserror`: `#[derive(Error)]` as far as the nine files need it. An error prints
//! the name of its type; no message of rustsat's reaches the log.

extern crate proc_macro;

use proc_macro::{Delimiter, TokenStream, TokenTree};

/// The attributes directly before a token, as text, then the tokens that are left.
fn split_attributes(tokens: &[TokenTree]) -> (Vec<String>, &[TokenTree]) {
    let mut attributes = vec![];
    let mut rest = tokens;
    while let [TokenTree::Punct(p), TokenTree::Group(g), tail @ ..] = rest {
        if p.as_char() != '#' {
            break;
        }
        attributes.push(g.stream().to_string());
        rest = tail;
    }
    (attributes, rest)
}

fn to_vec(stream: TokenStream) -> Vec<TokenTree> {
    stream.into_iter().collect()
}

/// `impl From<T>` for each variant `Name(#[from] T)` of an enum's body.
fn from_variants(name: &str, body: &[TokenTree]) -> String {
    let mut code = String::new();
    for pair in body.windows(2) {
        let [TokenTree::Ident(variant), TokenTree::Group(fields)] = pair else {
            continue;
        };
        let fields = to_vec(fields.stream());
        let (attributes, field) = split_attributes(&fields);
        if attributes.iter().any(|a| a == "from") {
            let field: TokenStream = field.iter().cloned().collect();
            code += &format!(
                "impl From<{field}> for {name} {{ fn from(e: {field}) -> Self {{ {name}::{variant}(e) }} }}\n"
            );
        }
    }
    code
}

#[proc_macro_derive(Error, attributes(error, from))]
pub fn derive_error(input: TokenStream) -> TokenStream {
    let tokens = to_vec(input);
    let keyword = tokens
        .iter()
        .position(|t| matches!(t.to_string().as_str(), "struct" | "enum"))
        .expect("a struct or an enum");
    let name = tokens[keyword + 1].to_string();
    // the one generic type of the nine files has a single constant parameter
    let generic = matches!(&tokens[keyword + 2], TokenTree::Punct(p) if p.as_char() == '<');
    let (parameters, arguments) = if generic { ("<const U: u32>", "<U>") } else { ("", "") };

    let (mut attributes, _) = split_attributes(&tokens);
    let body = match tokens.last() {
        Some(TokenTree::Group(g)) if g.delimiter() == Delimiter::Brace => to_vec(g.stream()),
        _ => vec![],
    };
    attributes.extend(body.iter().map(ToString::to_string));
    let has_message = attributes.iter().any(|a| a.trim_start_matches('[').trim_start().starts_with("error"));

    let mut code = format!("impl{parameters} std::error::Error for {name}{arguments} {{}}\n");
    if has_message {
        code += &format!(
            "impl{parameters} std::fmt::Display for {name}{arguments} {{\n\
             fn fmt(&self, f: &mut std::fmt::Formatter<'_>) -> std::fmt::Result {{ f.write_str(\"{name}\") }}\n}}\n"
        );
    }
    code += &from_variants(&name, &body);
    code.parse().expect("generated code parses")
}
