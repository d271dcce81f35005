//! Names, texts and bytes as they are written.

use crate::rules::RuleFile;

/// Whether it can stand without quotes: a letter or `_`, then those and digits.
/// `_` alone is a pattern.
pub(super) fn is_word(name: &[u8]) -> bool {
    let Some((first, rest)) = name.split_first() else {
        return false;
    };
    let letter = |byte: &u8| byte.is_ascii_alphabetic() || *byte == b'_';
    letter(first)
        && rest
            .iter()
            .all(|byte| letter(byte) || byte.is_ascii_digit())
        && name != b"_"
}

/// A character as it stands between such quotes.
fn put(written: &mut String, c: char, quote: char) {
    match c {
        '\n' => written.push_str("\\n"),
        '\t' => written.push_str("\\t"),
        '\\' => written.push_str("\\\\"),
        ' '..='~' if c == quote => written.extend(['\\', quote]),
        ' '..='~' => written.push(c),
        _ if c.is_ascii() => written.push_str(&format!("\\x{:02x}", c as u32)),
        _ => written.extend(c.escape_debug()),
    }
}

/// Bytes that are no UTF-8, which no file that was accepted has, are shown as
/// hex and can't be read again.
fn quoted(text: &[u8], quote: char) -> String {
    let mut written = String::from(quote);
    for part in text.utf8_chunks() {
        for c in part.valid().chars() {
            put(&mut written, c, quote);
        }
        for byte in part.invalid() {
            written.push_str(&format!("\\x{byte:02x}"));
        }
    }
    written.push(quote);
    written
}

/// A text, in quotes.
pub(crate) fn shown_text(text: &[u8]) -> String {
    quoted(text, '"')
}

/// A name: a word, or in backquotes.
pub(super) fn word(name: &[u8]) -> String {
    if is_word(name) {
        return String::from_utf8_lossy(name).into_owned();
    }
    quoted(name, '`')
}

/// Bytes, as hex.
pub(crate) fn shown_bytes(bytes: &[u8]) -> String {
    let digits: String = bytes.iter().map(|byte| format!("{byte:02x}")).collect();
    format!("hex\"{digits}\"")
}

/// The name of a number, or the number where the file has no such name.
pub(crate) fn shown_name(rules: &RuleFile, number: u16) -> String {
    match rules.name(number) {
        Some(name) => word(name),
        None => format!("#{number}"),
    }
}
