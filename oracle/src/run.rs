//! Drawn files with the bodies' answers.

use std::collections::BTreeMap;
use std::fmt;

use crate::compile::{noted, original, plan_within};
use crate::draw;
use crate::file::{MAX_PLAN, MIN_WORK};
use crate::literal::LITERAL;
use crate::plan::{Plan, base_bytes, plan_bytes};

/// Looks at a node that one drawn file may cost before it is left out.
pub const FUEL: u64 = 2_000_000;

/// A file, and its plan or refusal.
pub type Answered = (Vec<u8>, Result<Vec<u8>, u8>);

/// The answer as program `plan` gives it, or none where it costs too much.
pub fn answer(file: &[u8]) -> Option<Result<Vec<u8>, u8>> {
    let plan = plan_within(noted, FUEL, file, MIN_WORK)?;
    Some(plan.and_then(|plan| plan_bytes(&plan, MAX_PLAN)))
}

/// What the answer to a file is held against.
#[derive(Debug, Clone, PartialEq, Eq)]
pub enum Reference {
    /// The original bodies' answer, in the base's form.
    Rust(Result<Vec<u8>, u8>),
    /// The written rule, for this reason.
    Rule(Why),
}

/// Why the original bodies are no reference of a file.
#[derive(Debug, Clone, Copy, PartialEq, Eq, PartialOrd, Ord)]
pub enum Why {
    /// They report code 4, and request [8] of document 02 has a narrowing in its place.
    OwnRow,
    /// It is refused by 19 (request [7]), which they do not know.
    Literal,
}

impl Why {
    /// What a run says after the count of such files.
    pub const fn words(self) -> &'static str {
        match self {
            Self::OwnRow => "with equal fields of one row",
            Self::Literal => "with a literal of the wrong kind",
        }
    }
}

/// The reference of a file with this answer, or none where it costs the bodies too much.
pub fn reference(file: &[u8], answer: &Result<Vec<u8>, u8>) -> Option<Reference> {
    let plan = plan_within(original, FUEL, file, MIN_WORK)?;
    Some(match plan {
        _ if *answer == Err(LITERAL) => Reference::Rule(Why::Literal),
        Ok(plan) if own_rows(&plan) > 0 => Reference::Rule(Why::OwnRow),
        plan => Reference::Rust(plan.and_then(|plan| base_bytes(&plan, MAX_PLAN))),
    })
}

/// Files of which the original bodies are no reference, counted.
#[derive(Debug, Clone, Default)]
pub struct ByRule(BTreeMap<Why, usize>);

impl ByRule {
    pub fn add(&mut self, reference: &Reference) {
        if let Reference::Rule(why) = reference {
            *self.0.entry(*why).or_default() += 1;
        }
    }

    pub fn count(&self, why: Why) -> usize {
        self.0.get(&why).copied().unwrap_or(0)
    }
}

impl fmt::Display for ByRule {
    /// A line for each reason.
    fn fmt(&self, f: &mut fmt::Formatter<'_>) -> fmt::Result {
        for why in [Why::OwnRow, Why::Literal] {
            let (count, words) = (self.count(why), why.words());
            writeln!(
                f,
                "{count} {words}: left out beside the Rust, held against the written rule"
            )?;
        }
        Ok(())
    }
}

/// How often the original bodies report a field of a level's own row: code 4.
pub fn own_rows(plan: &Plan) -> usize {
    let codes = plan.diagnostics.iter().map(|(_, code)| *code);
    codes.filter(|code| *code == OWN_ROW).count()
}

const OWN_ROW: u8 = 4;

/// An accepted file's plan as the bodies leave it, with the nodes that they met,
/// and its bytes; none where the file is refused or costs too much.
pub fn planned(file: &[u8]) -> Option<(Plan, Vec<u8>)> {
    let plan = plan_within(noted, FUEL, file, MIN_WORK)?.ok()?;
    let bytes = plan_bytes(&plan, MAX_PLAN).ok()?;
    Some((plan, bytes))
}

/// The files of a seed that are short enough and not too costly, without end.
pub fn answered(seed: u64, max: usize) -> impl Iterator<Item = Answered> {
    draw::files(seed, u64::MAX)
        .filter(move |file| file.len() <= max)
        .filter_map(|file| {
            let outcome = answer(&file)?;
            Some((file, outcome))
        })
}
