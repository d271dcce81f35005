//! The rules that every level of a compiled plan keeps: refusal 18.

use std::fmt;

use super::{KeyPart, PlanLevel, Seek};

/// A rule of every level of a plan.
#[derive(Debug, Clone, Copy, PartialEq, Eq, PartialOrd, Ord, Hash)]
#[non_exhaustive]
pub enum LevelRule {
    /// Closers are at most parts.
    ClosersAmongParts,
    /// Narrowings = parts - closers + residuals + range + guide.
    NarrowingsSum,
    /// There are as many edges as folded comparisons.
    EdgesFolded,
    /// A Composite seek has a part that isn't bytes.
    CompositePart,
    /// A guide beside a range has the range's path.
    GuideInRange,
    /// A Bounded seek has an edge.
    BoundedEdge,
    /// A Bounded seek has no guide.
    BoundedGuide,
}

impl LevelRule {
    /// All of them, in the order in which they are looked at.
    pub const ALL: [LevelRule; 7] = [
        LevelRule::ClosersAmongParts,
        LevelRule::NarrowingsSum,
        LevelRule::EdgesFolded,
        LevelRule::CompositePart,
        LevelRule::GuideInRange,
        LevelRule::BoundedEdge,
        LevelRule::BoundedGuide,
    ];

    /// The rule as a sentence.
    pub const fn words(self) -> &'static str {
        match self {
            LevelRule::ClosersAmongParts => "closers are at most parts",
            LevelRule::NarrowingsSum => "narrowings = parts - closers + residuals + range + guide",
            LevelRule::EdgesFolded => "there are as many edges as folded comparisons",
            LevelRule::CompositePart => "a Composite seek has a part that isn't bytes",
            LevelRule::GuideInRange => "a guide beside a range has the range's path",
            LevelRule::BoundedEdge => "a Bounded seek has an edge",
            LevelRule::BoundedGuide => "a Bounded seek has no guide",
        }
    }

    fn kept(self, level: &PlanLevel) -> bool {
        match (self, &level.seek) {
            (LevelRule::ClosersAmongParts, _) => level.closers <= level.parts,
            (LevelRule::NarrowingsSum, _) => usize::from(level.narrowings) == level.narrowed(),
            (LevelRule::EdgesFolded, seek) => seek.edges() == level.folded.len(),
            (LevelRule::CompositePart, Seek::Composite(parts)) => {
                let bytes = |key: &KeyPart| matches!(key, KeyPart::Bytes(_));
                parts.iter().any(|part| !bytes(&part.key))
            }
            (LevelRule::GuideInRange, Seek::PrefixRange(_, range)) => {
                level.guide.iter().all(|guide| guide.path == range.path)
            }
            (LevelRule::BoundedEdge, seek @ Seek::Bounded(..)) => seek.edges() > 0,
            (LevelRule::BoundedGuide, Seek::Bounded(..)) => level.guide.is_none(),
            _ => true,
        }
    }
}

impl fmt::Display for LevelRule {
    fn fmt(&self, f: &mut fmt::Formatter<'_>) -> fmt::Result {
        f.pad(self.words())
    }
}

impl PlanLevel {
    /// The first rule that the level breaks; none of a level that was compiled.
    pub fn broken(&self) -> Option<LevelRule> {
        LevelRule::ALL.into_iter().find(|rule| !rule.kept(self))
    }

    /// Narrowings as its other items have them.
    fn narrowed(&self) -> usize {
        let parts = usize::from(self.parts.saturating_sub(self.closers));
        let ranges = usize::from(matches!(self.seek, Seek::PrefixRange(..)));
        parts + self.residuals.len() + ranges + usize::from(self.guide.is_some())
    }
}

impl Seek {
    /// How many edges it has.
    fn edges(&self) -> usize {
        match self {
            Seek::Bounded(_, lo, hi) => usize::from(lo.is_some()) + usize::from(hi.is_some()),
            _ => 0,
        }
    }
}
