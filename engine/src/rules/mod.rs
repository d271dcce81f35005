//! A rule file as data: the ten sections, in their order.
//!
//! [`RuleFile::read`] gives a file's sections or the place of the first fault;
//! [`RuleFile::write`] gives the bytes back, whatever the numbers in it say. A
//! file of no bytes is ten empty sections, which are written as ten counts of 0.

mod read;
mod section;
mod write;

pub(crate) use read::{Item, Located, located};
pub use section::{Field, Section, What};
pub(crate) use write::Bytes as Writer;

use crate::Fault;

/// The number that stands for no value type and no predicate.
pub(crate) const NONE: u16 = 0xFFFF;
/// The deepest type, and the most that a Field's steps and its type's depth sum to.
pub(crate) const MAX_DEPTH: usize = 32;
/// The most steps that a path holds.
pub(crate) const MAX_STEPS: u8 = 31;

/// A rule file. A table's numbers are indices into its `Vec`; nothing says that
/// they are in range before the file is compiled.
#[derive(Debug, Clone, PartialEq, Eq, Default)]
pub struct RuleFile {
    /// Names, which also carry the texts: UTF-8.
    pub names: Vec<Vec<u8>>,
    /// Types; a child stands before its parents.
    pub types: Vec<Type>,
    /// Predicates.
    pub predicates: Vec<Predicate>,
    /// Patterns; a child stands before its parent.
    pub nodes: Vec<Node>,
    /// What names stand for before the first level.
    pub bindings: Vec<Binding>,
    /// Fact patterns that are looked up ahead of a level.
    pub hoisted: Vec<Hoisted>,
    /// References whose rows stand in registers.
    pub fetched: Vec<Fetched>,
    /// What new names must match.
    pub constraints: Vec<Constraint>,
    /// Orders between patterns.
    pub comparisons: Vec<Comparison>,
    /// The levels to compile, in order.
    pub levels: Vec<Level>,
}

/// A type.
#[derive(Debug, Clone, PartialEq, Eq, Hash)]
pub enum Type {
    /// A number.
    Int,
    /// A text.
    Str,
    /// Bytes.
    Bytes,
    /// A reference to a fact of this predicate.
    Fact(u16),
    /// Fields.
    Record(Vec<FieldType>),
    /// One of some alternatives.
    Union(Vec<Alternative>),
}

/// A field of a Record type.
#[derive(Debug, Clone, Copy, PartialEq, Eq, Hash)]
pub struct FieldType {
    /// Its name.
    pub name: u16,
    /// Its type.
    pub ty: u16,
}

/// An alternative of a Union type.
#[derive(Debug, Clone, Copy, PartialEq, Eq, Hash)]
pub struct Alternative {
    /// Its name.
    pub name: u16,
    /// The number that stands for it in a key.
    pub disc: u32,
    /// What it carries.
    pub ty: u16,
}

/// A predicate: facts of one kind.
#[derive(Debug, Clone, Copy, PartialEq, Eq)]
pub struct Predicate {
    /// The type of its keys.
    pub key: u16,
    /// The type of its values.
    pub value: Option<u16>,
}

/// Which part of a text a Fuzzy is held against.
#[derive(Debug, Clone, Copy, PartialEq, Eq)]
pub enum Anchor {
    /// Its beginning.
    Prefix,
    /// All of it.
    Whole,
}

/// A pattern.
#[derive(Debug, Clone, PartialEq, Eq)]
pub enum Node {
    /// A number.
    Int(i64),
    /// A text.
    Str(u16),
    /// Bytes, at most 255.
    Bytes(Vec<u8>),
    /// A name.
    Var(u16),
    /// Anything.
    Wildcard,
    /// Nothing.
    Never,
    /// A text that begins so.
    Prefix(u16),
    /// A text that is near to this one, by a distance.
    Fuzzy(u16, u8, Anchor),
    /// Fields, or one alternative of a union.
    Record(Vec<FieldPattern>),
    /// A key's field of what a pattern stands for.
    KeyAccess(u16, u16),
    /// The value of what a pattern stands for.
    ValueAccess(u16),
    /// An alternative of what a pattern stands for.
    Select(u16, u16),
    /// Alternatives, not opened here.
    Disjunction,
    /// A query, not opened here.
    Subquery,
    /// A fact of this predicate, by its key.
    Fact(u16, u16),
    /// Arithmetic, not opened here.
    Arith,
    /// What an earlier phase could not read.
    Error,
}

/// A field of a Record pattern.
#[derive(Debug, Clone, Copy, PartialEq, Eq)]
pub struct FieldPattern {
    /// Its name.
    pub name: u16,
    /// Its pattern.
    pub node: u16,
}

/// A way into a key: a field, then steps (a record's field, a union's disc).
#[derive(Debug, Clone, PartialEq, Eq)]
pub struct Path {
    /// The key's field.
    pub field: u16,
    /// The steps below it, at most 255.
    pub steps: Vec<u32>,
}

/// What a name stands for. Addresses are register numbers.
#[derive(Debug, Clone, PartialEq, Eq)]
pub enum Slot {
    /// A register's row, of a predicate if that is known.
    Row(u16, Option<u16>),
    /// A register's whole key, with its type.
    Key(u16, u16),
    /// What was derived into a register.
    Derived(u16),
    /// A field of a register's key, with its type.
    Field(u16, Path, u16),
    /// A register's value, with its type.
    Value(u16, u16),
    /// A constant pattern.
    Const(u16),
}

/// A name and what it stands for.
#[derive(Debug, Clone, PartialEq, Eq)]
pub struct Binding {
    /// The name.
    pub name: u16,
    /// What it stands for.
    pub slot: Slot,
}

/// A Fact pattern that a name stands for.
#[derive(Debug, Clone, Copy, PartialEq, Eq)]
pub struct Hoisted {
    /// The pattern.
    pub node: u16,
    /// The name.
    pub name: u16,
}

/// A reference whose row stands in a register.
#[derive(Debug, Clone, PartialEq, Eq)]
pub struct Fetched {
    /// The register that has the reference.
    pub address: u16,
    /// Where it has it.
    pub path: Path,
    /// The register that has the row.
    pub register: u16,
}

/// A pattern that a new name must match.
#[derive(Debug, Clone, Copy, PartialEq, Eq)]
pub struct Constraint {
    /// The name.
    pub name: u16,
    /// The pattern.
    pub node: u16,
}

/// An order between two patterns.
#[derive(Debug, Clone, Copy, PartialEq, Eq)]
pub enum Op {
    /// Below.
    Lt,
    /// Below or equal.
    Le,
    /// Above.
    Gt,
    /// Above or equal.
    Ge,
}

/// Two patterns and their order.
#[derive(Debug, Clone, Copy, PartialEq, Eq)]
pub struct Comparison {
    /// The order.
    pub op: Op,
    /// The left pattern.
    pub left: u16,
    /// The right pattern.
    pub right: u16,
}

/// A level: facts of a predicate, by a pattern of their keys, into a register.
#[derive(Debug, Clone, Copy, PartialEq, Eq)]
pub struct Level {
    /// The predicate.
    pub predicate: u16,
    /// The key's pattern.
    pub node: u16,
    /// The register.
    pub address: u16,
}

impl RuleFile {
    /// Reads a file, front to back; the fault is the first one met. A file of no
    /// bytes has no fault, and no records.
    ///
    /// A file that reads may still be refused: its numbers are not looked at.
    pub fn read(file: &[u8]) -> Result<Self, Fault> {
        located(file).map(|located| located.rules)
    }

    /// The file's bytes.
    ///
    /// Counts and lengths are taken modulo their range: a section or a list
    /// that is longer than the format allows gives a file that is refused or
    /// reads as another one.
    pub fn write(&self) -> Vec<u8> {
        write::write(self)
    }

    /// How many records a section has.
    pub fn count(&self, section: Section) -> usize {
        match section {
            Section::Names => self.names.len(),
            Section::Types => self.types.len(),
            Section::Predicates => self.predicates.len(),
            Section::Nodes => self.nodes.len(),
            Section::Bindings => self.bindings.len(),
            Section::Hoisted => self.hoisted.len(),
            Section::Fetched => self.fetched.len(),
            Section::Constraints => self.constraints.len(),
            Section::Comparisons => self.comparisons.len(),
            Section::Levels => self.levels.len(),
        }
    }

    /// The node of a number.
    pub fn node(&self, number: u16) -> Option<&Node> {
        self.nodes.get(usize::from(number))
    }

    /// The type of a number.
    pub fn ty(&self, number: u16) -> Option<&Type> {
        self.types.get(usize::from(number))
    }

    /// The key type of a level's predicate.
    pub fn key_of(&self, level: &Level) -> Option<&Type> {
        let predicate = self.predicates.get(usize::from(level.predicate))?;
        self.ty(predicate.key)
    }

    /// A name's text; none where the number is past the names.
    pub fn name(&self, number: u16) -> Option<&[u8]> {
        self.names.get(usize::from(number)).map(Vec::as_slice)
    }
}

impl Node {
    /// The nodes under this one.
    pub fn children(&self) -> Vec<u16> {
        match self {
            Node::Record(fields) => fields.iter().map(|field| field.node).collect(),
            Node::KeyAccess(_, node)
            | Node::ValueAccess(node)
            | Node::Select(_, node)
            | Node::Fact(_, node) => vec![*node],
            _ => vec![],
        }
    }
}

impl Type {
    /// The types under this one; a Fact's predicate is none.
    pub fn children(&self) -> Vec<u16> {
        match self {
            Type::Record(fields) => fields.iter().map(|field| field.ty).collect(),
            Type::Union(alternatives) => alternatives.iter().map(|each| each.ty).collect(),
            _ => vec![],
        }
    }
}

impl Op {
    /// All four, in the order of their numbers.
    pub const ALL: [Op; 4] = [Op::Lt, Op::Le, Op::Gt, Op::Ge];

    /// As it is written: `<`, `<=`, `>` or `>=`.
    pub const fn sign(self) -> &'static str {
        match self {
            Op::Lt => "<",
            Op::Le => "<=",
            Op::Gt => ">",
            Op::Ge => ">=",
        }
    }
}
