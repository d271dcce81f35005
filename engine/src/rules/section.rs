use std::fmt;

/// The ten sections of a rule file, in their order.
#[derive(Debug, Clone, Copy, PartialEq, Eq, PartialOrd, Ord, Hash)]
#[allow(missing_docs)] // their names say it
pub enum Section {
    Names,
    Types,
    Predicates,
    Nodes,
    Bindings,
    Hoisted,
    Fetched,
    Constraints,
    Comparisons,
    Levels,
}

use Section::*;

impl Section {
    /// All ten, in their order.
    pub const ALL: [Section; 10] = [
        Names,
        Types,
        Predicates,
        Nodes,
        Bindings,
        Hoisted,
        Fetched,
        Constraints,
        Comparisons,
        Levels,
    ];

    /// The most records that it may have.
    pub const fn limit(self) -> usize {
        match self {
            Names | Types => 512,
            Nodes => 2_048,
            Levels => 64,
            Predicates | Bindings | Hoisted | Fetched | Constraints | Comparisons => 256,
        }
    }

    /// What one of its records is called.
    pub const fn one(self) -> &'static str {
        match self {
            Names => "name",
            Types => "type",
            Predicates => "predicate",
            Nodes => "node",
            Bindings => "binding",
            Hoisted => "hoisted entry",
            Fetched => "fetched entry",
            Constraints => "constraint",
            Comparisons => "comparison",
            Levels => "level",
        }
    }
}

impl fmt::Display for Section {
    fn fmt(&self, f: &mut fmt::Formatter<'_>) -> fmt::Result {
        f.pad(match self {
            Names => "names",
            Types => "types",
            Predicates => "predicates",
            Nodes => "nodes",
            Bindings => "bindings",
            Hoisted => "hoisted",
            Fetched => "fetched",
            Constraints => "constraints",
            Comparisons => "comparisons",
            Levels => "levels",
        })
    }
}

/// A field of a record, or a section's count.
#[derive(Debug, Clone, Copy, PartialEq, Eq, Hash)]
pub struct Field {
    /// What the field holds.
    pub what: What,
    /// Which one of the record's list it belongs to.
    pub of: Option<usize>,
}

/// What a field holds.
#[derive(Debug, Clone, Copy, PartialEq, Eq, Hash)]
#[allow(missing_docs)] // their words stand in `words`
#[non_exhaustive]
pub enum What {
    Count,
    Kind,
    Length,
    NameByte,
    Bytes,
    Integer,
    Name,
    Type,
    KeyType,
    ValueType,
    Predicate,
    RowPredicate,
    Node,
    LeftNode,
    RightNode,
    Fields,
    Disc,
    Distance,
    Anchor,
    Op,
    Address,
    Register,
    PathField,
    Steps,
    Step,
}

impl What {
    /// In words.
    pub const fn words(self) -> &'static str {
        match self {
            What::Count => "count",
            What::Kind => "kind",
            What::Length => "length",
            What::NameByte => "byte",
            What::Bytes => "bytes",
            What::Integer => "number",
            What::Name => "name",
            What::Type => "type",
            What::KeyType => "key type",
            What::ValueType => "value type",
            What::Predicate | What::RowPredicate => "predicate",
            What::Node => "node",
            What::LeftNode => "left node",
            What::RightNode => "right node",
            What::Fields => "number of fields",
            What::Disc => "disc",
            What::Distance => "distance",
            What::Anchor => "anchor",
            What::Op => "op",
            What::Address => "address",
            What::Register => "register",
            What::PathField => "path's field",
            What::Steps => "path's step count",
            What::Step => "path's step",
        }
    }

    /// The section that its number is to be found in.
    pub const fn table(self) -> Option<Section> {
        match self {
            What::Name => Some(Names),
            What::Type | What::KeyType | What::ValueType => Some(Types),
            What::Predicate | What::RowPredicate => Some(Predicates),
            What::Node | What::LeftNode | What::RightNode => Some(Nodes),
            _ => None,
        }
    }

    /// Whether FFFF hex stands for none in it.
    pub const fn may_be_none(self) -> bool {
        matches!(self, What::ValueType | What::RowPredicate)
    }
}

impl fmt::Display for Field {
    fn fmt(&self, f: &mut fmt::Formatter<'_>) -> fmt::Result {
        match (self.what, self.of) {
            (what, None) => f.write_str(what.words()),
            (what @ (What::NameByte | What::Step), Some(of)) => write!(f, "{} {of}", what.words()),
            (what, Some(of)) => write!(f, "{} of field {of}", what.words()),
        }
    }
}
