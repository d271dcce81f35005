//! Rule files as text, for people to write, read and compare.
//!
//! ```
//! use sinalvento::text;
//!
//! let written = r#"
//! predicate door: { room: Int, tag: Str }
//! level door { room = 7, tag = "k".. }
//! "#;
//! let parsed = text::parse(written).unwrap();
//! let file = parsed.rules.write();
//! assert_eq!(file.len(), 75);
//! # let mut buffers = sinalvento::Buffers::new();
//! # assert!(sinalvento::compile(&file, &mut buffers).is_ok());
//!
//! let mistaken = text::parse("level door { room = }").unwrap_err();
//! assert_eq!(mistaken.to_string(), "line 1, column 21: a pattern is expected, and this is `}`");
//! ```
//!
//! # Statements
//!
//! Line ends are blanks, and `//` begins a comment. Statements stand in any
//! order; those of one section keep theirs.
//!
//! | Statement | Section |
//! |---|---|
//! | `predicate door: { room: Int, tag: Str } -> Int` | predicates: a label, the key's type, the value's if there is one |
//! | `level door { room = 7 } in r5` | levels: a predicate, a pattern, a register; without `in` it is the level's own number |
//! | `where t = "k"..` | constraints: a name and a pattern |
//! | `where n < 5` | comparisons, by `<`, `<=`, `>` or `>=` |
//! | `let x = row r5 of door` | bindings; also `row r5`, `key r5: T`, `derived r5`, `field r5[1/0/2]: T`, `value r5: T`, `const P` |
//! | `hoist *f as x` | hoisted: a pattern, most often one with a label, and a name |
//! | `fetch r5[1/0] into r6` | fetched: where a reference stands, and the register of its row |
//! | `type side = union { left: Int, right: Str }` | types: a new one, with a label |
//! | `node &f door { room = 7 }` | nodes: a pattern that stands by itself |
//! | `names room, tag, "two words"` | names, ahead of those that the other statements bring |
//!
//! # Types
//!
//! `Int`, `Str`, `Bytes`, `Fact door`, a record `{ room: Int, tag: Str }`, a union
//! `union { left: Int, right = 5: Str }` (an alternative's disc is its place in the
//! list, unless it is told), or the label of a type above. Equal types are one.
//!
//! # Patterns
//!
//! | Pattern | Node |
//! |---|---|
//! | `7`, `"key"`, `hex"00ff"` | Int, Str, Bytes |
//! | `"k"..`, `"key" ~2`, `"key".. ~2` | Prefix, Fuzzy of the whole text, Fuzzy of its beginning |
//! | `x`, `_` | Var, Wildcard |
//! | `{ room = 7, tag = t }` | Record |
//! | `x.room`, `x.*`, `x?left` | key Access, value Access, Select |
//! | `door { room = 7 }`, `door(x)` | Fact |
//! | `!never`, `!disjunction`, `!subquery`, `!arith`, `!error` | as they are called |
//! | `&f P`, then `*f` | a pattern with a label, and that very node again |
//!
//! # Numbers
//!
//! Nothing needs a number: names are numbered in the order in which they are met,
//! patterns and types children first. Where a number is wanted it stands after
//! `#`: `#3` for a name, a type or a predicate, `*#3` for a node, `!var #3` and
//! `!text #3` for a Var and a text. A name that is no word stands between
//! backquotes. So every file that reads can be written as text.

mod doc;
mod layout;
mod parse;
mod pattern;
mod print;
mod quote;
mod token;
mod types;

use std::error::Error;
use std::fmt;

pub use parse::{Parsed, parse};
pub(crate) use print::Patterns;
pub use print::print;
pub(crate) use quote::{shown_bytes, shown_name, shown_text};

use crate::rules::Section;

/// How deep braces and brackets may nest; what a file nests deeper has labels.
const MAX_NESTING: usize = 64;

/// Where a token begins, in lines and characters from 1 on.
#[derive(Debug, Clone, Copy, PartialEq, Eq, PartialOrd, Ord, Default)]
pub struct Position {
    /// The line.
    pub line: usize,
    /// The character in its line.
    pub column: usize,
}

impl fmt::Display for Position {
    fn fmt(&self, f: &mut fmt::Formatter<'_>) -> fmt::Result {
        write!(f, "line {}, column {}", self.line, self.column)
    }
}

/// Why a text is no rule file.
#[derive(Debug, Clone, PartialEq, Eq)]
pub struct TextFault {
    /// Where.
    pub position: Position,
    /// A sentence.
    pub why: String,
}

impl fmt::Display for TextFault {
    fn fmt(&self, f: &mut fmt::Formatter<'_>) -> fmt::Result {
        write!(f, "{}: {}", self.position, self.why)
    }
}

impl Error for TextFault {}

/// Where each record of a parsed file stands in its text.
#[derive(Debug, Clone, PartialEq, Eq, Default)]
pub struct Places([Vec<Position>; 10]);

impl Places {
    /// Of a file without a text.
    pub const fn nowhere() -> Self {
        Self([const { vec![] }; 10])
    }

    /// Where a record stands; none where the file has no such record.
    pub fn of(&self, section: Section, record: usize) -> Option<Position> {
        self.0[section as usize].get(record).copied()
    }

    fn push(&mut self, section: Section, position: Position) {
        self.0[section as usize].push(position);
    }
}
