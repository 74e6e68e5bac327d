//! A procedural macro that writes the tokens of rustc for a row of a file: a letter and a length in
//! bytes for each. `rustc.py` builds and calls it.
extern crate proc_macro;

use proc_macro::{Delimiter, Spacing, TokenStream, TokenTree};
use std::str::FromStr;

/// Returns `true` if the tree is the brackets of `#[doc = ".."]`. A macro gets a documentation
/// comment in this form.
fn is_doc(tree: Option<&TokenTree>) -> bool {
    matches!(tree, Some(TokenTree::Group(group)) if group.stream().to_string().starts_with("doc ="))
}

/// Adds the tokens of the stream. The letters are `i` (identifier), `l` (literal), `t` (lifetime),
/// `p` (punctuation) and `d` (documentation comment, which has no length here).
fn add_tokens(stream: TokenStream, found: &mut Vec<String>) {
    let trees: Vec<TokenTree> = stream.into_iter().collect();
    let mut at = 0;
    while at < trees.len() {
        let inner = matches!(trees.get(at + 1), Some(TokenTree::Punct(it)) if it.as_char() == '!');
        let doc = at + if inner { 2 } else { 1 };
        match &trees[at] {
            TokenTree::Punct(it) if it.as_char() == '#' && is_doc(trees.get(doc)) => {
                found.push("d".to_string());
                at = doc;
            }
            TokenTree::Group(group) if group.delimiter() == Delimiter::None => {
                add_tokens(group.stream(), found);
            }
            TokenTree::Group(group) => {
                found.push("p1".to_string());
                add_tokens(group.stream(), found);
                found.push("p1".to_string());
            }
            TokenTree::Ident(it) => found.push(format!("i{}", it.to_string().len())),
            TokenTree::Literal(it) => found.push(format!("l{}", it.to_string().len())),
            TokenTree::Punct(it) if it.as_char() == '\'' && it.spacing() == Spacing::Joint => {
                at += 1;
                found.push(format!("t{}", 1 + trees[at].to_string().len()));
            }
            TokenTree::Punct(_) => found.push("p1".to_string()),
        }
        at += 1;
    }
}

/// Returns the text whose bytes the hexadecimal digits denote.
fn text_of(digits: &str) -> String {
    let byte = |at: usize| u8::from_str_radix(&digits[at..at + 2], 16).unwrap();
    String::from_utf8((0..digits.len()).step_by(2).map(byte).collect()).unwrap()
}

#[proc_macro]
pub fn tokens(row: TokenStream) -> TokenStream {
    let row: usize = row.to_string().parse().unwrap();
    let texts = std::fs::read_to_string(std::env::var("TEXTS").unwrap()).unwrap();
    let text = text_of(texts.lines().nth(row).unwrap());
    let found = match std::panic::catch_unwind(|| TokenStream::from_str(&text)) {
        Ok(Ok(stream)) => {
            let mut found = Vec::new();
            add_tokens(stream, &mut found);
            found.join(" ")
        }
        _ => "none".to_string(),
    };
    std::fs::write(format!("{}/{row}", std::env::var("ANSWERS").unwrap()), found).unwrap();
    TokenStream::new()
}
