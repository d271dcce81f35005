//! Just enough of Rust's tokens to find branches in rustfmt's output.

#[derive(Clone, Copy, PartialEq, Eq, Debug)]
pub enum Kind {
    /// Spaces, newlines and comments.
    Blank,
    Word,
    /// A string, character or lifetime: nothing inside it counts.
    Quoted,
    Mark,
}

#[derive(Clone, Copy, Debug)]
pub struct Token<'a> {
    pub kind: Kind,
    pub text: &'a str,
    /// The line within the item, from 0.
    pub line: usize,
}

const PAIRS: &[&str] = &["=>", "->", "==", "!=", "<=", ">=", "&&", "||", "::", ".."];

pub fn tokens(text: &str) -> Vec<Token<'_>> {
    let mut found = vec![];
    let (mut at, mut line) = (0, 0);
    while at < text.len() {
        let rest = &text[at..];
        let (kind, length) = next(rest);
        let text = &rest[..length];
        found.push(Token { kind, text, line });
        line += text.matches('\n').count();
        at += length;
    }
    found
}

fn next(rest: &str) -> (Kind, usize) {
    let first = rest.chars().next().expect("not at the end");
    if first.is_whitespace() {
        let end = rest.find(|c: char| !c.is_whitespace());
        return (Kind::Blank, end.unwrap_or(rest.len()));
    }
    if rest.starts_with("//") {
        return (Kind::Blank, rest.find('\n').unwrap_or(rest.len()));
    }
    if first == '"' {
        return (Kind::Quoted, string_end(rest));
    }
    if first == '\'' {
        return (Kind::Quoted, quote_end(rest));
    }
    if first.is_alphanumeric() || first == '_' {
        let end = rest.find(|c: char| !c.is_alphanumeric() && c != '_');
        return (Kind::Word, end.unwrap_or(rest.len()));
    }
    match PAIRS.iter().find(|pair| rest.starts_with(**pair)) {
        Some(pair) => (Kind::Mark, pair.len()),
        None => (Kind::Mark, first.len_utf8()),
    }
}

fn string_end(rest: &str) -> usize {
    let mut escaped = false;
    for (at, c) in rest.char_indices().skip(1) {
        match c {
            _ if escaped => escaped = false,
            '\\' => escaped = true,
            '"' => return at + 1,
            _ => {}
        }
    }
    panic!("a string without an end")
}

/// A character literal, else the lone quote of a lifetime.
fn quote_end(rest: &str) -> usize {
    let mut chars = rest.char_indices().skip(1);
    match chars.next() {
        Some((_, '\\')) => rest[2..].find('\'').map_or(1, |end| end + 3),
        Some(_) => match chars.next() {
            Some((at, '\'')) => at + 1,
            _ => 1,
        },
        None => 1,
    }
}
