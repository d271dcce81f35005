use std::error::Error;
use std::fmt;

use crate::Refusal;
use crate::rules::{Field, Section};

/// A refusal with its place in the file, and why.
#[derive(Debug, Clone, PartialEq, Eq)]
pub struct Fault {
    /// Which refusal it is.
    pub refusal: Refusal,
    /// The section; none where the fault is the file's length or what follows
    /// the last section.
    pub section: Option<Section>,
    /// The record's number in its section; none where it is the section's count.
    pub record: Option<usize>,
    /// The field of that record.
    pub field: Option<Field>,
    /// Where the field begins, in bytes from the file's start.
    pub offset: usize,
    /// What should stand there.
    pub expected: String,
    /// What does.
    pub found: String,
}

impl Fault {
    /// Section, record, field and offset in words.
    pub fn place(&self) -> String {
        let mut words = vec![];
        if let Some(section) = self.section {
            words.push(match self.record {
                Some(record) => format!("{} {record}", section.one()),
                None => format!("section {section}"),
            });
        }
        if let Some(field) = self.field {
            words.push(field.to_string());
        }
        words.push(format!("offset {} ({:x} hex)", self.offset, self.offset));
        words.join(", ")
    }
}

impl fmt::Display for Fault {
    fn fmt(&self, f: &mut fmt::Formatter<'_>) -> fmt::Result {
        writeln!(f, "refused by {}: {}", self.refusal.number(), self.refusal)?;
        writeln!(f, "  at {}", self.place())?;
        writeln!(f, "  expected {}", self.expected)?;
        write!(f, "  found {}", self.found)
    }
}

impl Error for Fault {}
