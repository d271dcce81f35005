//! A text's statements, laid out as sections.
//!
//! Records are numbered as they are met, children first. A label may be used
//! above its place, so the text is gone through twice: numbers do not depend on
//! what labels stand for.

use std::collections::HashMap;

use super::token::{Token, tokens};
use super::{Places, Position, TextFault};
use crate::rules::*;

/// A text's rule file.
#[derive(Debug, Clone, PartialEq, Eq, Default)]
pub struct Parsed {
    /// The file.
    pub rules: RuleFile,
    /// Where its records stand in the text.
    pub places: Places,
    /// The predicates' labels, which the file does not keep.
    pub predicates: Vec<String>,
}

/// Reads a text; the fault is the first one met.
pub fn parse(text: &str) -> Result<Parsed, TextFault> {
    let tokens = tokens(text)?;
    let first = Parser::over(&tokens, None)?;
    let known = Labels {
        predicates: first.labels.predicates,
        nodes: first.labels.nodes,
    };
    let second = Parser::over(&tokens, Some(&known))?;
    Ok(Parsed {
        rules: second.rules,
        places: second.places,
        predicates: second.predicates,
    })
}

/// The numbers that labels stand for.
#[derive(Default)]
pub(super) struct Labels {
    pub predicates: HashMap<String, u16>,
    pub nodes: HashMap<String, u16>,
}

pub(super) struct Parser<'a> {
    tokens: &'a [(Token, Position)],
    at: usize,
    /// All labels, once the text was gone through.
    known: Option<&'a Labels>,
    pub(super) labels: Labels,
    pub(super) rules: RuleFile,
    pub(super) places: Places,
    pub(super) nesting: usize,
    predicates: Vec<String>,
    names: HashMap<Vec<u8>, u16>,
    pub(super) type_labels: HashMap<String, u16>,
    pub(super) type_numbers: HashMap<Type, u16>,
}

pub(super) type Parse<T> = Result<T, TextFault>;

impl<'a> Parser<'a> {
    fn over(tokens: &'a [(Token, Position)], known: Option<&'a Labels>) -> Parse<Self> {
        let mut parser = Self {
            tokens,
            at: 0,
            known,
            labels: Labels::default(),
            rules: RuleFile::default(),
            places: Places::default(),
            nesting: 0,
            predicates: vec![],
            names: HashMap::new(),
            type_labels: HashMap::new(),
            type_numbers: HashMap::new(),
        };
        while *parser.peek() != Token::End {
            parser.statement()?;
        }
        Ok(parser)
    }

    /// The token at hand; past the last one it is the end.
    pub(super) fn peek(&self) -> &'a Token {
        self.ahead(0)
    }

    pub(super) fn ahead(&self, by: usize) -> &'a Token {
        self.tokens
            .get(self.at + by)
            .map_or(&Token::End, |(token, _)| token)
    }

    pub(super) fn position(&self) -> Position {
        let last = self.tokens.last();
        let here = self.tokens.get(self.at).or(last);
        here.map_or(Position::default(), |(_, position)| *position)
    }

    pub(super) fn next(&mut self) -> &'a Token {
        let token = self.peek();
        self.at += 1;
        token
    }

    pub(super) fn fault<T>(&self, why: impl Into<String>) -> Parse<T> {
        Err(TextFault {
            position: self.position(),
            why: why.into(),
        })
    }

    pub(super) fn expected<T>(&self, what: &str) -> Parse<T> {
        self.fault(format!(
            "{what} is expected, and this is {}",
            self.peek().shown()
        ))
    }

    pub(super) fn is(&self, sign: &str) -> bool {
        matches!(self.peek(), Token::Sign(found) if *found == sign)
    }

    /// Takes a sign if it is there.
    pub(super) fn takes(&mut self, sign: &str) -> bool {
        let there = self.is(sign);
        self.at += usize::from(there);
        there
    }

    pub(super) fn sign(&mut self, sign: &str) -> Parse<()> {
        if self.takes(sign) {
            return Ok(());
        }
        self.expected(&format!("`{sign}`"))
    }

    pub(super) fn is_word(&self, word: &str) -> bool {
        matches!(self.peek(), Token::Word(found) if found == word)
    }

    /// Takes a word if it is there.
    pub(super) fn takes_word(&mut self, word: &str) -> bool {
        let there = self.is_word(word);
        self.at += usize::from(there);
        there
    }

    fn keyword(&mut self, word: &str) -> Parse<()> {
        if self.takes_word(word) {
            return Ok(());
        }
        self.expected(&format!("`{word}`"))
    }

    /// A number of this range.
    pub(super) fn number<T: TryFrom<i128>>(&mut self, what: &str, most: u64) -> Parse<T> {
        let Token::Number(number) = *self.peek() else {
            return self.expected(&format!("a number ({what})"));
        };
        match T::try_from(number) {
            Ok(number) => {
                self.at += 1;
                Ok(number)
            }
            Err(_) => self.fault(format!("{what} is 0 to {most}, and this is {number}")),
        }
    }

    /// A table's number, after its `#`.
    pub(super) fn table_number(&mut self) -> Parse<u16> {
        self.sign("#")?;
        self.number("what stands after `#`", 65_535)
    }

    pub(super) fn label(&mut self) -> Parse<String> {
        match self.peek() {
            Token::Word(word) if word != "_" => {
                self.at += 1;
                Ok(word.clone())
            }
            _ => self.expected("a label"),
        }
    }

    /// What a list in braces holds, up to its closing brace.
    pub(super) fn braces<T>(
        &mut self,
        each: impl Fn(&mut Self, usize) -> Parse<T>,
    ) -> Parse<Vec<T>> {
        self.sign("{")?;
        let mut found = vec![];
        while !self.takes("}") {
            if found.len() == 255 {
                return self.fault("a 256th field: a record or union has at most 255");
            }
            found.push(each(self, found.len())?);
            if !self.is("}") && !self.takes(",") {
                return self.expected("`,` or `}`");
            }
        }
        Ok(found)
    }

    /// Counts what nests, so that no text can exhaust the stack.
    pub(super) fn nested<T>(&mut self, inner: impl FnOnce(&mut Self) -> Parse<T>) -> Parse<T> {
        if self.nesting == super::MAX_NESTING {
            return self.fault("this nests too deep: put it above, with a label");
        }
        self.nesting += 1;
        let found = inner(self);
        self.nesting -= 1;
        found
    }

    /// A record too many is told where it stands.
    pub(super) fn room(&self, section: Section, position: Position) -> Parse<()> {
        let (count, limit) = (self.rules.count(section), section.limit());
        if count < limit {
            return Ok(());
        }
        let one = section.one();
        let why = format!("one {one} too many: a file has at most {limit} {section}");
        Err(TextFault { position, why })
    }

    /// Notes where a section's next record stands.
    pub(super) fn begin(&mut self, section: Section, position: Position) -> Parse<()> {
        self.room(section, position)?;
        self.places.push(section, position);
        Ok(())
    }

    /// The number of a name's text, which is new the first time it is met.
    pub(super) fn named(&mut self, text: &[u8], position: Position) -> Parse<u16> {
        if let Some(&number) = self.names.get(text) {
            return Ok(number);
        }
        self.new_name(text, position)
    }

    fn new_name(&mut self, text: &[u8], position: Position) -> Parse<u16> {
        if text.len() > 255 {
            let why = format!(
                "this has {} bytes: a name or text has at most 255",
                text.len()
            );
            return Err(TextFault { position, why });
        }
        let number = self.rules.names.len() as u16;
        self.begin(Section::Names, position)?;
        self.rules.names.push(text.to_vec());
        self.names.entry(text.to_vec()).or_insert(number);
        Ok(number)
    }

    /// A name: a word, one in backquotes, or a number.
    pub(super) fn name(&mut self) -> Parse<u16> {
        let position = self.position();
        let text = match self.peek() {
            Token::Word(word) if word != "_" => word.as_bytes(),
            Token::Name(name) => name,
            Token::Sign("#") => return self.table_number(),
            _ => return self.expected("a name"),
        };
        self.at += 1;
        self.named(text, position)
    }

    /// A predicate: its label, or a number.
    pub(super) fn predicate_number(&mut self) -> Parse<u16> {
        if self.is("#") {
            return self.table_number();
        }
        let position = self.position();
        let label = self.label()?;
        let known = |labels: &Labels| labels.predicates.get(&label).copied();
        match self.known {
            None => Ok(0),
            Some(labels) => known(labels).ok_or_else(|| TextFault {
                position,
                why: format!("there is no predicate `{label}` in this text"),
            }),
        }
    }

    /// The node that a label, or a number, stands for.
    pub(super) fn node_number(&mut self) -> Parse<u16> {
        if self.is("#") {
            return self.table_number();
        }
        let position = self.position();
        let label = self.label()?;
        let known = |labels: &Labels| labels.nodes.get(&label).copied();
        match self.known {
            None => Ok(0),
            Some(labels) => known(labels).ok_or_else(|| TextFault {
                position,
                why: format!("no pattern has the label `&{label}`"),
            }),
        }
    }

    fn statement(&mut self) -> Parse<()> {
        let position = self.position();
        let Token::Word(keyword) = self.peek() else {
            return self.expected(STATEMENT);
        };
        let statement: fn(&mut Self, Position) -> Parse<()> = match keyword.as_str() {
            "names" => Self::names,
            "type" => Self::type_statement,
            "predicate" => Self::predicate,
            "node" => Self::node_statement,
            "let" => Self::binding,
            "hoist" => Self::hoisted,
            "fetch" => Self::fetched,
            "where" => Self::condition,
            "level" => Self::level,
            _ => return self.expected(STATEMENT),
        };
        self.at += 1;
        statement(self, position)
    }

    fn names(&mut self, _: Position) -> Parse<()> {
        loop {
            let position = self.position();
            let text = match self.peek() {
                Token::Word(word) => word.as_bytes(),
                Token::Name(text) | Token::Text(text) => text,
                _ => return self.expected("a name"),
            };
            self.at += 1;
            self.new_name(text, position)?;
            if !self.takes(",") {
                return Ok(());
            }
        }
    }

    fn type_statement(&mut self, _: Position) -> Parse<()> {
        let at = self.position();
        let label = self.label()?;
        if RESERVED.contains(&label.as_str()) || self.type_labels.contains_key(&label) {
            let why = format!("`{label}` is a type already");
            return Err(TextFault { position: at, why });
        }
        self.sign("=")?;
        let number = self.new_type()?;
        self.type_labels.insert(label, number);
        Ok(())
    }

    fn predicate(&mut self, position: Position) -> Parse<()> {
        let number = self.rules.predicates.len() as u16;
        self.begin(Section::Predicates, position)?;
        let at = self.position();
        let label = self.label()?;
        if self
            .labels
            .predicates
            .insert(label.clone(), number)
            .is_some()
        {
            let why = format!("`{label}` is a predicate already");
            return Err(TextFault { position: at, why });
        }
        self.predicates.push(label);
        self.sign(":")?;
        let key = self.ty()?;
        let value = if self.takes("->") {
            Some(self.ty()?)
        } else {
            None
        };
        self.rules.predicates.push(Predicate { key, value });
        Ok(())
    }

    fn node_statement(&mut self, position: Position) -> Parse<()> {
        let count = self.rules.nodes.len();
        self.pattern()?;
        if self.rules.nodes.len() == count {
            let why = String::from("this is a node that stands elsewhere, and nothing new");
            return Err(TextFault { position, why });
        }
        Ok(())
    }

    fn binding(&mut self, position: Position) -> Parse<()> {
        self.begin(Section::Bindings, position)?;
        let name = self.name()?;
        self.sign("=")?;
        let slot = self.slot()?;
        self.rules.bindings.push(Binding { name, slot });
        Ok(())
    }

    fn slot(&mut self) -> Parse<Slot> {
        let Token::Word(kind) = self.peek() else {
            return self.expected(SLOT);
        };
        if !["row", "key", "derived", "field", "value", "const"].contains(&kind.as_str()) {
            return self.expected(SLOT);
        }
        self.at += 1;
        if kind == "const" {
            return Ok(Slot::Const(self.pattern()?));
        }
        let address = self.register()?;
        Ok(match kind.as_str() {
            "row" if self.takes_word("of") => Slot::Row(address, Some(self.predicate_number()?)),
            "row" => Slot::Row(address, None),
            "derived" => Slot::Derived(address),
            "field" => {
                let path = self.path()?;
                Slot::Field(address, path, self.typed()?)
            }
            "key" => Slot::Key(address, self.typed()?),
            _ => Slot::Value(address, self.typed()?),
        })
    }

    fn typed(&mut self) -> Parse<u16> {
        self.sign(":")?;
        self.ty()
    }

    /// A register: `r` and its number.
    fn register(&mut self) -> Parse<u16> {
        if let Token::Word(word) = self.peek()
            && let Some(digits) = word.strip_prefix('r')
            && let Ok(number) = digits.parse()
        {
            self.at += 1;
            return Ok(number);
        }
        self.expected("a register (`r0` to `r65535`)")
    }

    /// A field and steps: `[1/0/2]`.
    fn path(&mut self) -> Parse<Path> {
        self.sign("[")?;
        let field = self.number("a path's field", 65_535)?;
        let mut steps = vec![];
        while self.takes("/") {
            if steps.len() == 255 {
                return self.fault("a 256th step: a path has at most 255");
            }
            steps.push(self.number("a step", 4_294_967_295)?);
        }
        self.sign("]")?;
        Ok(Path { field, steps })
    }

    fn hoisted(&mut self, position: Position) -> Parse<()> {
        self.begin(Section::Hoisted, position)?;
        let node = self.pattern()?;
        self.keyword("as")?;
        let name = self.name()?;
        self.rules.hoisted.push(Hoisted { node, name });
        Ok(())
    }

    fn fetched(&mut self, position: Position) -> Parse<()> {
        self.begin(Section::Fetched, position)?;
        let address = self.register()?;
        let path = self.path()?;
        self.keyword("into")?;
        let register = self.register()?;
        self.rules.fetched.push(Fetched {
            address,
            path,
            register,
        });
        Ok(())
    }

    /// A constraint (a name, `=`, a pattern), or else a comparison.
    fn condition(&mut self, position: Position) -> Parse<()> {
        let by_number = self.is("!") && *self.ahead(2) == Token::Sign("#");
        let sign = if by_number {
            self.ahead(4)
        } else {
            self.ahead(1)
        };
        if *sign != Token::Sign("=") {
            return self.comparison(position);
        }
        self.begin(Section::Constraints, position)?;
        if by_number {
            self.sign("!")?;
            self.keyword("var")?;
        }
        let name = self.name()?;
        self.sign("=")?;
        let node = self.pattern()?;
        self.rules.constraints.push(Constraint { name, node });
        Ok(())
    }

    fn comparison(&mut self, position: Position) -> Parse<()> {
        self.begin(Section::Comparisons, position)?;
        let left = self.pattern()?;
        let Some(op) = Op::ALL.into_iter().find(|op| self.is(op.sign())) else {
            return self.expected("`=` after a name, or `<`, `<=`, `>` or `>=` after a pattern,");
        };
        self.at += 1;
        let right = self.pattern()?;
        self.rules.comparisons.push(Comparison { op, left, right });
        Ok(())
    }

    fn level(&mut self, position: Position) -> Parse<()> {
        let number = self.rules.levels.len() as u16;
        self.begin(Section::Levels, position)?;
        let predicate = self.predicate_number()?;
        let node = self.key()?;
        let address = if self.takes_word("in") {
            self.register()?
        } else {
            number
        };
        self.rules.levels.push(Level {
            predicate,
            node,
            address,
        });
        Ok(())
    }
}

const STATEMENT: &str =
    "a statement (predicate, level, where, let, hoist, fetch, type, node or names)";
const SLOT: &str = "row, key, derived, field, value or const";
/// What cannot be a type's label.
pub(super) const RESERVED: [&str; 5] = ["Int", "Str", "Bytes", "Fact", "union"];
