//! A text's tokens, with their places.

use super::{Position, TextFault};

#[derive(Debug, Clone, PartialEq, Eq)]
pub(super) enum Token {
    /// A word: a keyword, a label or a name.
    Word(String),
    /// A name in backquotes.
    Name(Vec<u8>),
    /// A text in quotes.
    Text(Vec<u8>),
    /// Bytes as hex.
    Bytes(Vec<u8>),
    Number(i128),
    Sign(&'static str),
    End,
}

impl Token {
    /// The token as a sentence calls it.
    pub fn shown(&self) -> String {
        match self {
            Token::Word(word) => format!("`{word}`"),
            Token::Name(_) => String::from("a name"),
            Token::Text(_) => String::from("a text"),
            Token::Bytes(_) => String::from("a string of bytes"),
            Token::Number(number) => format!("the number {number}"),
            Token::Sign(sign) => format!("`{sign}`"),
            Token::End => String::from("the end of the text"),
        }
    }
}

/// Longer ones first.
const SIGNS: [&str; 22] = [
    "->", "..", "<=", ">=", "{", "}", "(", ")", "[", "]", ",", ":", "=", "#", "&", "*", "!", "?",
    "~", "/", "<", ">",
];

type Lexed<T> = Result<T, TextFault>;

pub(super) fn tokens(text: &str) -> Lexed<Vec<(Token, Position)>> {
    let mut lexer = Lexer {
        rest: text,
        position: Position { line: 1, column: 1 },
    };
    let mut tokens = vec![];
    loop {
        lexer.blanks();
        let position = lexer.position;
        let token = lexer.token()?;
        let ends = token == Token::End;
        tokens.push((token, position));
        if ends {
            return Ok(tokens);
        }
    }
}

struct Lexer<'a> {
    rest: &'a str,
    position: Position,
}

impl<'a> Lexer<'a> {
    fn fault<T>(&self, why: impl Into<String>) -> Lexed<T> {
        Err(TextFault {
            position: self.position,
            why: why.into(),
        })
    }

    fn peek(&self) -> Option<char> {
        self.rest.chars().next()
    }

    fn next(&mut self) -> Option<char> {
        let next = self.peek()?;
        self.rest = &self.rest[next.len_utf8()..];
        if next == '\n' {
            self.position.line += 1;
            self.position.column = 1;
        } else {
            self.position.column += 1;
        }
        Some(next)
    }

    fn taken(&mut self, wanted: impl Fn(char) -> bool) -> &'a str {
        let all = self.rest;
        while self.peek().is_some_and(&wanted) {
            self.next();
        }
        &all[..all.len() - self.rest.len()]
    }

    fn blanks(&mut self) {
        loop {
            self.taken(char::is_whitespace);
            if !self.rest.starts_with("//") {
                return;
            }
            self.taken(|c| c != '\n');
        }
    }

    fn token(&mut self) -> Lexed<Token> {
        let Some(first) = self.peek() else {
            return Ok(Token::End);
        };
        let after = self.rest.get(1..).and_then(|rest| rest.chars().next());
        match first {
            'a'..='z' | 'A'..='Z' | '_' => self.word(),
            '0'..='9' => self.number(),
            '-' if after.is_some_and(|c| c.is_ascii_digit()) => self.number(),
            '"' => Ok(Token::Text(self.quoted('"')?)),
            '`' => Ok(Token::Name(self.quoted('`')?)),
            _ => self.sign(first),
        }
    }

    fn word(&mut self) -> Lexed<Token> {
        let word = self.taken(|c| c.is_ascii_alphanumeric() || c == '_');
        if word == "hex" && self.peek() == Some('"') {
            return self.bytes();
        }
        Ok(Token::Word(String::from(word)))
    }

    fn number(&mut self) -> Lexed<Token> {
        let start = self.position;
        let all = self.rest;
        self.next();
        self.taken(|c| c.is_ascii_digit());
        let digits = &all[..all.len() - self.rest.len()];
        match digits.parse() {
            Ok(number) => Ok(Token::Number(number)),
            Err(_) => Err(TextFault {
                position: start,
                why: String::from("this number is too large"),
            }),
        }
    }

    fn sign(&mut self, first: char) -> Lexed<Token> {
        if let Some(sign) = SIGNS.into_iter().find(|sign| self.rest.starts_with(sign)) {
            self.taken_bytes(sign.len());
            return Ok(Token::Sign(sign));
        }
        if first == '.' {
            self.next();
            return Ok(Token::Sign("."));
        }
        self.fault(format!("`{}` has no meaning here", first.escape_default()))
    }

    fn taken_bytes(&mut self, count: usize) {
        for _ in 0..count {
            self.next();
        }
    }

    /// A text or a name, to its closing quote.
    fn quoted(&mut self, quote: char) -> Lexed<Vec<u8>> {
        let start = self.position;
        self.next();
        let mut text = String::new();
        loop {
            let here = self.position;
            match self.next() {
                Some(end) if end == quote => return Ok(text.into_bytes()),
                Some('\\') => text.push(self.escaped(here)?),
                None | Some('\n') => {
                    let why = format!("this {quote} has no closing {quote} in its line");
                    return Err(TextFault {
                        position: start,
                        why,
                    });
                }
                Some(c) => text.push(c),
            }
        }
    }

    fn escaped(&mut self, position: Position) -> Lexed<char> {
        let c = match self.next() {
            Some('n') => Some('\n'),
            Some('t') => Some('\t'),
            Some(c @ ('\\' | '"' | '`')) => Some(c),
            Some('x') => self.hex_byte().filter(u8::is_ascii).map(char::from),
            Some('u') => self.number_in_braces(),
            _ => None,
        };
        c.ok_or_else(|| TextFault {
            position,
            why: String::from(
                r#"after \ comes n, t, \, ", `, x and two hex digits below 80, or u and a character's number in braces"#,
            ),
        })
    }

    /// A character by its number, as `{e9}`.
    fn number_in_braces(&mut self) -> Option<char> {
        if self.next() != Some('{') {
            return None;
        }
        let digits = self.taken(|c| c.is_ascii_hexdigit());
        if self.next() != Some('}') {
            return None;
        }
        char::from_u32(u32::from_str_radix(digits, 16).ok()?)
    }

    fn hex_byte(&mut self) -> Option<u8> {
        let high = self.next()?.to_digit(16)?;
        let low = self.next()?.to_digit(16)?;
        Some((high * 16 + low) as u8)
    }

    /// `hex` was taken; its digits stand in quotes.
    fn bytes(&mut self) -> Lexed<Token> {
        let start = self.position;
        self.next();
        let digits = self.taken(|c| c.is_ascii_hexdigit() || c == ' ');
        let digits: Vec<u32> = digits.chars().filter_map(|c| c.to_digit(16)).collect();
        if self.peek() != Some('"') {
            return self.fault("hex digits or a closing \" are expected");
        }
        self.next();
        let pairs = digits.chunks_exact(2);
        if !pairs.remainder().is_empty() {
            return Err(TextFault {
                position: start,
                why: String::from("a byte has two hex digits, and here one is missing"),
            });
        }
        Ok(Token::Bytes(
            pairs.map(|pair| (pair[0] * 16 + pair[1]) as u8).collect(),
        ))
    }
}
