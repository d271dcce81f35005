//! A plan as data: levels with their seeks, and what was added to the four lists.
//!
//! Each part, residual, range and guide carries the number of the node of its rule
//! file that made it.
//!
//! [`Plan::open`] opens a plan's bytes, [`Plan::to_bytes`] gives them back;
//! [`Plan::shown`] and [`Plan::described`] are for people.

mod fault;
mod keeps;
mod read;
mod show;
mod values;
mod write;

pub use fault::PlanFault;
pub use keeps::LevelRule;
pub use show::{Described, Shown};
pub use values::{Value, values};

use crate::Diagnostic;
use crate::rules::{Anchor, Binding, Path};

/// A plan.
#[derive(Debug, Clone, PartialEq, Eq, Default)]
pub struct Plan {
    /// Its levels, in the file's order.
    pub levels: Vec<PlanLevel>,
    /// New bindings.
    pub bindings: Vec<Binding>,
    /// Names that were constrained.
    pub constrained: Vec<u16>,
    /// Alternatives that were selected.
    pub selects: Vec<Select>,
    /// What is reported of nodes.
    pub diagnostics: Vec<(u16, Diagnostic)>,
}

/// A level of a plan.
#[derive(Debug, Clone, PartialEq, Eq)]
pub struct PlanLevel {
    /// How many narrowings its walk met.
    pub narrowings: u16,
    /// How many of its parts are closers.
    pub closers: u16,
    /// How many parts it has.
    pub parts: u16,
    /// How its facts are found.
    pub seek: Seek,
    /// A fuzzy text that guides the seek.
    pub guide: Option<Guide>,
    /// What each fact found is still tested by.
    pub residuals: Vec<Residual>,
    /// The comparisons that the seek's edges took over.
    pub folded: Vec<u16>,
}

/// How a level's facts are found.
#[derive(Debug, Clone, PartialEq, Eq)]
pub enum Seek {
    /// Keys that begin with these bytes: the level's parts, joined, then the node
    /// of each of them.
    Prefix(Vec<u8>, Vec<u16>),
    /// Keys that begin with these parts.
    Composite(Vec<Part>),
    /// Keys that begin with these parts, then with a text.
    PrefixRange(Vec<Part>, Range),
    /// Keys that begin with these parts, then lie between edges, lo and hi.
    Bounded(Vec<Part>, Option<Edge>, Option<Edge>),
}

/// A part of a key's beginning.
#[derive(Debug, Clone, PartialEq, Eq)]
pub struct Part {
    /// What stands there.
    pub key: KeyPart,
    /// The node that made it.
    pub node: u16,
}

/// What stands in a part of a key's beginning.
#[derive(Debug, Clone, PartialEq, Eq)]
pub enum KeyPart {
    /// Bytes.
    Bytes(Vec<u8>),
    /// A field of a register's key.
    RegisterField(u16, Path),
    /// The reference to a register's fact.
    RegisterFact(u16),
}

/// A text that a field begins with.
#[derive(Debug, Clone, PartialEq, Eq)]
pub struct Range {
    /// The text, encoded and left open.
    pub prefix: Vec<u8>,
    /// The field.
    pub path: Path,
    /// The node that made it.
    pub node: u16,
}

/// An end of what a Bounded seek looks through. It carries no node: its level's
/// folded comparisons say where it comes from.
#[derive(Debug, Clone, PartialEq, Eq)]
pub struct Edge {
    /// Whether the bytes themselves belong to the range.
    pub inclusive: bool,
    /// The bytes.
    pub bytes: Vec<u8>,
}

/// A text that a field is near to.
#[derive(Debug, Clone, Copy, PartialEq, Eq)]
pub struct Fuzzy {
    /// The text, by its name's number.
    pub name: u16,
    /// How far it may be.
    pub distance: u8,
    /// Which part of the field is held against it.
    pub anchor: Anchor,
}

/// A fuzzy text that guides a seek.
#[derive(Debug, Clone, PartialEq, Eq)]
pub struct Guide {
    /// The field.
    pub path: Path,
    /// The text.
    pub fuzzy: Fuzzy,
    /// The node that made it.
    pub node: u16,
}

/// A test of each fact that a seek finds.
#[derive(Debug, Clone, PartialEq, Eq)]
pub struct Residual {
    /// The field.
    pub path: Path,
    /// What it must be.
    pub op: ResidualOp,
    /// The node that made it.
    pub node: u16,
}

/// What a residual's field must be.
#[derive(Debug, Clone, PartialEq, Eq)]
pub enum ResidualOp {
    /// These bytes.
    Bytes(Vec<u8>),
    /// A text that begins so.
    Prefix(Vec<u8>),
    /// Equal to a field of a register's key.
    RegisterField(u16, Path),
    /// The reference to a register's fact.
    RegisterFact(u16),
    /// A union's alternative.
    Disc(u32),
    /// A text near to another.
    Fuzzy(Fuzzy),
    /// Equal to another field of the same fact.
    OwnField(Path),
}

/// An alternative that was selected: the union's place, and the disc.
#[derive(Debug, Clone, PartialEq, Eq)]
pub struct Select {
    /// The register.
    pub address: u16,
    /// The union's own path.
    pub path: Path,
    /// The alternative's disc.
    pub disc: u32,
}

impl Seek {
    /// What it is called.
    pub const fn name(&self) -> &'static str {
        match self {
            Seek::Prefix(..) => "Prefix",
            Seek::Composite(_) => "Composite",
            Seek::PrefixRange(..) => "PrefixRange",
            Seek::Bounded(..) => "Bounded",
        }
    }
}
