//! Where and why: a refusal with its place in the file, or an accepted file's
//! diagnostics with theirs.
//!
//! This is ordinary Rust beside the proved function, and tested to give the same
//! number; the function decides whether a file is accepted.

mod checks;
mod fault;
mod literal;
mod overlooked;

use std::fmt;

pub use fault::Fault;
pub use overlooked::Overlooked;

use crate::plan::Plan;
use crate::rules::{Located, RuleFile, Section, located};
use crate::{Buffers, Diagnostic, MAX_PLAN, Refusal, compile};

/// What the compile says of a file, with places.
#[derive(Debug, Clone, PartialEq, Eq)]
pub enum Explanation {
    /// It is refused.
    Refused(Fault),
    /// It has a plan.
    Accepted(Accepted),
}

/// What there is to say of an accepted file.
#[derive(Debug, Clone, PartialEq, Eq)]
pub struct Accepted {
    /// The plan's length in bytes.
    pub length: usize,
    /// The levels in it.
    pub levels: usize,
    /// What the plan reports, in its order.
    pub notes: Vec<Note>,
    /// Patterns that the compile passes over without a word.
    pub overlooked: Vec<Overlooked>,
}

/// A diagnostic with the place of its node.
#[derive(Debug, Clone, Copy, PartialEq, Eq)]
pub struct Note {
    /// What is reported.
    pub diagnostic: Diagnostic,
    /// The node's number: its record in the section nodes.
    pub node: u16,
    /// Where the node begins, in bytes from the file's start.
    pub offset: usize,
}

/// Says where and why a file is refused, or what its plan reports.
pub fn explain(file: &[u8]) -> Explanation {
    match accepted(file) {
        Ok(accepted) => Explanation::Accepted(accepted),
        Err(fault) => Explanation::Refused(fault),
    }
}

fn accepted(file: &[u8]) -> Result<Accepted, Fault> {
    let located = located(file)?;
    checks::check(&located)?;
    literal::check(&located)?;
    let mut buffers = Buffers::new();
    match compile(file, &mut buffers) {
        Ok(bytes) => Ok(reported(&located, bytes)),
        Err(refusal) => Err(late(&located, refusal, &mut buffers)),
    }
}

fn reported(located: &Located, bytes: &[u8]) -> Accepted {
    let plan = Plan::open(bytes).unwrap_or_default();
    let note = |&(node, diagnostic): &(u16, Diagnostic)| Note {
        diagnostic,
        node,
        offset: offset(located, Section::Nodes, node.into()),
    };
    Accepted {
        length: bytes.len(),
        levels: plan.levels.len(),
        notes: plan.diagnostics.iter().map(note).collect(),
        overlooked: overlooked::overlooked(located),
    }
}

fn offset(located: &Located, section: Section, record: usize) -> usize {
    located.offset(section, record).unwrap_or_default()
}

/// A refusal that comes after the checks: the level with which it comes.
fn late(located: &Located, refusal: Refusal, buffers: &mut Buffers) -> Fault {
    let rules = &located.rules;
    let (fit, length) = fitting(rules, buffers);
    Fault {
        refusal,
        section: Some(Section::Levels),
        record: Some(fit),
        field: None,
        offset: offset(located, Section::Levels, fit),
        expected: format!("a plan of {MAX_PLAN} bytes at most"),
        found: format!("more: the {fit} levels before this one take {length} bytes"),
    }
}

/// How many levels, from the first on, have a plan, and its length. A plan only
/// grows with its levels.
fn fitting(rules: &RuleFile, buffers: &mut Buffers) -> (usize, usize) {
    let (mut fit, mut length, mut over) = (0, 0, rules.levels.len());
    let mut first = rules.clone();
    while fit < over {
        let middle = (fit + over) / 2;
        first.levels = rules.levels[..middle].to_vec();
        match compile(&first.write(), buffers) {
            Ok(plan) if fit < middle => (fit, length) = (middle, plan.len()),
            Ok(plan) => {
                length = plan.len();
                break;
            }
            Err(_) => over = middle,
        }
    }
    (fit, length)
}

impl fmt::Display for Explanation {
    fn fmt(&self, f: &mut fmt::Formatter<'_>) -> fmt::Result {
        match self {
            Explanation::Refused(fault) => fault.fmt(f),
            Explanation::Accepted(accepted) => accepted.fmt(f),
        }
    }
}

impl fmt::Display for Accepted {
    fn fmt(&self, f: &mut fmt::Formatter<'_>) -> fmt::Result {
        let (length, levels) = (self.length, self.levels);
        let s = if levels == 1 { "" } else { "s" };
        write!(f, "accepted: {levels} level{s}, a plan of {length} bytes")?;
        for note in &self.notes {
            write!(f, "\n  {note}")?;
        }
        for overlooked in &self.overlooked {
            write!(f, "\n  {overlooked}")?;
        }
        Ok(())
    }
}

impl fmt::Display for Note {
    fn fmt(&self, f: &mut fmt::Formatter<'_>) -> fmt::Result {
        let (node, offset) = (self.node, self.offset);
        let (code, diagnostic) = (self.diagnostic.code(), self.diagnostic);
        write!(f, "node {node}, offset {offset}: code {code} {diagnostic}")
    }
}
