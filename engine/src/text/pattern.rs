//! Patterns in a text: each is a node of its own, laid out children first.

use super::parse::{Parse, Parser};
use super::token::Token;
use super::{Position, TextFault};
use crate::rules::{Anchor, FieldPattern, Node, Section};

impl Parser<'_> {
    /// A pattern's node.
    pub(super) fn pattern(&mut self) -> Parse<u16> {
        self.nested(|parser| {
            let label = parser.node_label()?;
            let count = parser.rules.nodes.len();
            let node = parser.reads()?;
            if let Some((label, position)) = label {
                let fresh = parser.rules.nodes.len() > count;
                parser.labelled(label, position, node, fresh)?;
            }
            Ok(node)
        })
    }

    fn node_label(&mut self) -> Parse<Option<(String, Position)>> {
        if !self.takes("&") {
            return Ok(None);
        }
        let position = self.position();
        Ok(Some((self.label()?, position)))
    }

    fn labelled(&mut self, label: String, position: Position, node: u16, fresh: bool) -> Parse<()> {
        if !fresh {
            let why = String::from("this is a node that stands elsewhere, and nothing new");
            return Err(TextFault { position, why });
        }
        if self.labels.nodes.insert(label, node).is_some() {
            let why = String::from("another pattern has this label");
            return Err(TextFault { position, why });
        }
        Ok(())
    }

    /// A pattern and the reads after it.
    fn reads(&mut self) -> Parse<u16> {
        let mut node = self.primary()?;
        loop {
            let position = self.position();
            node = if self.takes(".") {
                if self.takes("*") {
                    self.node(Node::ValueAccess(node), position)?
                } else {
                    let name = self.name()?;
                    self.node(Node::KeyAccess(name, node), position)?
                }
            } else if self.takes("?") {
                let name = self.name()?;
                self.node(Node::Select(name, node), position)?
            } else {
                return Ok(node);
            };
        }
    }

    fn node(&mut self, node: Node, position: Position) -> Parse<u16> {
        let number = self.rules.nodes.len() as u16;
        self.begin(Section::Nodes, position)?;
        self.rules.nodes.push(node);
        Ok(number)
    }

    fn primary(&mut self) -> Parse<u16> {
        let position = self.position();
        match self.peek() {
            Token::Number(_) => {
                let number = self.integer()?;
                self.node(Node::Int(number), position)
            }
            Token::Text(text) => {
                self.next();
                let name = self.named(text, position)?;
                self.text(name, position)
            }
            Token::Bytes(bytes) => self.bytes(bytes, position),
            Token::Sign("(") => {
                self.next();
                let node = self.pattern()?;
                self.sign(")")?;
                Ok(node)
            }
            Token::Sign("*") => {
                self.next();
                self.node_number()
            }
            Token::Sign("{") => self.record(position),
            Token::Sign("!") => self.special(position),
            Token::Sign("#") => self.fact(position),
            Token::Word(word) if word == "_" => {
                self.next();
                self.node(Node::Wildcard, position)
            }
            Token::Word(_) if self.opens_key(1) => self.fact(position),
            Token::Word(_) | Token::Name(_) => {
                let name = self.name()?;
                self.node(Node::Var(name), position)
            }
            _ => self.expected("a pattern"),
        }
    }

    fn opens_key(&self, by: usize) -> bool {
        matches!(self.ahead(by), Token::Sign("{" | "("))
    }

    fn integer(&mut self) -> Parse<i64> {
        let Token::Number(number) = *self.peek() else {
            return self.expected("a number");
        };
        match i64::try_from(number) {
            Ok(number) => {
                self.next();
                Ok(number)
            }
            Err(_) => {
                self.fault("a number has 64 bits, from -9223372036854775808 to 9223372036854775807")
            }
        }
    }

    /// A text's number was taken: Str, Prefix or Fuzzy, by what follows.
    fn text(&mut self, name: u16, position: Position) -> Parse<u16> {
        let prefix = self.takes("..");
        let fuzzy = self.takes("~");
        let node = match (prefix, fuzzy) {
            (false, false) => Node::Str(name),
            (true, false) => Node::Prefix(name),
            (_, true) => {
                let distance = self.number("a distance", 255)?;
                let anchor = if prefix {
                    Anchor::Prefix
                } else {
                    Anchor::Whole
                };
                Node::Fuzzy(name, distance, anchor)
            }
        };
        self.node(node, position)
    }

    fn bytes(&mut self, bytes: &[u8], position: Position) -> Parse<u16> {
        if bytes.len() > 255 {
            return self.fault(format!(
                "this has {} bytes: a pattern has at most 255",
                bytes.len()
            ));
        }
        self.next();
        self.node(Node::Bytes(bytes.to_vec()), position)
    }

    fn record(&mut self, position: Position) -> Parse<u16> {
        let fields = self.braces(|parser, _| {
            let name = parser.name()?;
            parser.sign("=")?;
            let node = parser.pattern()?;
            Ok(FieldPattern { name, node })
        })?;
        self.node(Node::Record(fields), position)
    }

    /// A key's pattern, after its predicate: a record, or anything in brackets.
    pub(super) fn key(&mut self) -> Parse<u16> {
        let position = self.position();
        if self.is("{") {
            return self.nested(|parser| parser.record(position));
        }
        if !self.takes("(") {
            return self.expected("a key's pattern, `{ .. }` or `( .. )`,");
        }
        let node = self.pattern()?;
        self.sign(")")?;
        Ok(node)
    }

    fn fact(&mut self, position: Position) -> Parse<u16> {
        let predicate = self.predicate_number()?;
        let key = self.key()?;
        self.node(Node::Fact(predicate, key), position)
    }

    /// What begins with `!`.
    fn special(&mut self, position: Position) -> Parse<u16> {
        self.next();
        let Token::Word(word) = self.peek() else {
            return self.expected(SPECIAL);
        };
        let node = match word.as_str() {
            "never" => Node::Never,
            "disjunction" => Node::Disjunction,
            "subquery" => Node::Subquery,
            "arith" => Node::Arith,
            "error" => Node::Error,
            "var" => {
                self.next();
                let name = self.table_number()?;
                return self.node(Node::Var(name), position);
            }
            "text" => {
                self.next();
                let name = self.table_number()?;
                return self.text(name, position);
            }
            _ => return self.expected(SPECIAL),
        };
        self.next();
        self.node(node, position)
    }
}

const SPECIAL: &str = "never, disjunction, subquery, arith, error, var or text";
