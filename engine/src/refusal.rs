use std::error::Error;
use std::fmt;

/// Why a file or a plan was refused, by the number the exported function gives.
///
/// A compile's places run downwards, from 1 to 14, then 19 and 15. While reading (3
/// to 7) the first fault met front to back is given; of the whole-file checks (8 to
/// 14, 19) each is tried over the whole file before the next. The plan reader gives 15
/// by the lengths alone, then the first of 16 and 17 that is met, and 18 last.
#[derive(Debug, Clone, Copy, PartialEq, Eq, PartialOrd, Ord, Hash)]
#[non_exhaustive]
pub enum Refusal {
    /// The file has more than [`MAX_FILE`](crate::MAX_FILE) bytes.
    FileTooLong,
    /// The work area has fewer than [`MIN_WORK`](crate::MIN_WORK) bytes.
    WorkTooShort,
    /// The file ends too early.
    Ends,
    /// A section has more records than it may.
    Count,
    /// A kind, an anchor or an op has no meaning.
    Kind,
    /// A name is not well-formed UTF-8.
    NameByte,
    /// The file ends too late.
    Follows,
    /// A name, type, predicate or node is not there.
    Number,
    /// A type or node stands before one of its children.
    Child,
    /// A type's names, or a Union's discs, are not distinct.
    Repeat,
    /// A type nests too deep.
    Depth,
    /// A node has two parents.
    Shared,
    /// A name is bound to a pattern that is not a value.
    NotConstant,
    /// A binding's or a fetched path could grow too long.
    Path,
    /// The plan does not fit, by [`MAX_PLAN`](crate::MAX_PLAN) or by its buffer.
    PlanTooLong,
    /// The plan ends too early.
    PlanEnds,
    /// A plan's byte has no meaning, a path has too many steps, or the plan ends
    /// too late.
    PlanByte,
    /// A level of the plan breaks a rule that every compiled level keeps
    /// ([`LevelRule`](crate::plan::LevelRule)).
    PlanRule,
    /// A level has a number where a text belongs, or the like: written there, or by a name
    /// or a read that stands for it. It comes before [`PlanTooLong`](Refusal::PlanTooLong).
    Literal,
    /// A number that this crate has no name for: the archive is newer than the
    /// crate. 255 stands for every number from there on.
    Unknown(u8),
}

use Refusal::*;

/// The part of a call that refuses.
#[derive(Debug, Clone, Copy, PartialEq, Eq, PartialOrd, Ord, Hash)]
#[non_exhaustive]
pub enum Place {
    /// What the caller lends: 1 and 2.
    LentMemory,
    /// The file, front to back: 3 to 7.
    Reading,
    /// The whole-file checks: 8 to 14, and 19.
    WholeFile,
    /// The plan: 15.
    Writing,
    /// A plan's bytes, front to back: 16 and 17.
    PlanReading,
    /// A plan's levels, when all was read: 18.
    PlanLevels,
    /// A part that this crate does not know.
    Unknown,
}

impl Refusal {
    /// All that have a name here, in order.
    pub const ALL: [Refusal; 19] = [
        FileTooLong,
        WorkTooShort,
        Ends,
        Count,
        Kind,
        NameByte,
        Follows,
        Number,
        Child,
        Repeat,
        Depth,
        Shared,
        NotConstant,
        Path,
        PlanTooLong,
        PlanEnds,
        PlanByte,
        PlanRule,
        Literal,
    ];

    /// The number that the exported function gives.
    pub const fn number(self) -> u8 {
        match self {
            FileTooLong => 1,
            WorkTooShort => 2,
            Ends => 3,
            Count => 4,
            Kind => 5,
            NameByte => 6,
            Follows => 7,
            Number => 8,
            Child => 9,
            Repeat => 10,
            Depth => 11,
            Shared => 12,
            NotConstant => 13,
            Path => 14,
            PlanTooLong => 15,
            PlanEnds => 16,
            PlanByte => 17,
            PlanRule => 18,
            Literal => 19,
            Unknown(number) => number,
        }
    }

    /// The refusal of a number; none where it has no name here.
    pub fn from_number(number: u64) -> Option<Self> {
        let at = usize::try_from(number.checked_sub(1)?).ok()?;
        Self::ALL.get(at).copied()
    }

    /// The refusal of a number that the exported function gave, by name or not.
    pub(crate) fn given(number: u64) -> Self {
        let unnamed = || Unknown(u8::try_from(number).unwrap_or(u8::MAX));
        Self::from_number(number).unwrap_or_else(unnamed)
    }

    /// The part of a call that refuses.
    pub const fn place(self) -> Place {
        match self.number() {
            1..=2 => Place::LentMemory,
            3..=7 => Place::Reading,
            8..=14 | 19 => Place::WholeFile,
            15 => Place::Writing,
            16..=17 => Place::PlanReading,
            18 => Place::PlanLevels,
            _ => Place::Unknown,
        }
    }

    /// When it is given, in the words of the format's papers.
    pub const fn words(self) -> &'static str {
        match self {
            FileTooLong => "file above 32,768 bytes",
            WorkTooShort => "work area below 65,536 bytes",
            Ends => "bytes end inside a count or record",
            Count => "count above its section's limit",
            Kind => "unknown kind, anchor or op",
            NameByte => "name that is not well-formed UTF-8",
            Follows => "bytes follow the last section",
            Number => "number at or past its section's count (FFFF for none excepted)",
            Child => "type's or node's child not lower than its parent",
            Repeat => "type repeats a name, or a Union a disc",
            Depth => "type deeper than 32",
            Shared => "node is a child more than once",
            NotConstant => "Const binding of a node that isn't constant",
            Path => {
                "Field binding with steps + depth of its type above 32, \
                 or fetched path above 31 steps"
            }
            PlanTooLong => "plan longer than 16,384 bytes or than the plan buffer",
            PlanEnds => "plan ends early",
            PlanByte => {
                "byte of the plan without a meaning, path with more steps than a path holds, \
                 or bytes left over"
            }
            PlanRule => "level of the plan breaks a rule of every level",
            Literal => "constant of the wrong kind for its key, field or payload",
            Unknown(_) => "a refusal that this version of the crate does not know",
        }
    }
}

impl fmt::Display for Refusal {
    fn fmt(&self, f: &mut fmt::Formatter<'_>) -> fmt::Result {
        f.pad(self.words())
    }
}

impl Error for Refusal {}

impl fmt::Display for Place {
    fn fmt(&self, f: &mut fmt::Formatter<'_>) -> fmt::Result {
        f.pad(match self {
            Place::LentMemory => "lent memory",
            Place::Reading => "reading",
            Place::WholeFile => "whole file",
            Place::Writing => "writing",
            Place::PlanReading => "reading the plan",
            Place::PlanLevels => "the plan's levels",
            Place::Unknown => "unknown",
        })
    }
}

#[cfg(test)]
mod tests {
    use super::*;
    use crate::rules::{MAX_DEPTH, MAX_STEPS};

    #[test]
    fn a_number_without_a_name_is_kept() {
        for number in [20, 24, 255] {
            let refusal = Refusal::given(number);
            assert_eq!(u64::from(refusal.number()), number);
            assert_eq!(refusal.place(), Place::Unknown);
        }
        assert_eq!(Refusal::given(u64::MAX >> 16), Unknown(255));
        assert_eq!(Refusal::given(15), PlanTooLong);
    }

    /// The words have the numbers that the crate itself goes by.
    #[test]
    fn limits_in_words() {
        let deeper = format!("type deeper than {MAX_DEPTH}");
        assert_eq!(Depth.words(), deeper);
        let longer = format!(
            "Field binding with steps + depth of its type above {MAX_DEPTH}, \
             or fetched path above {MAX_STEPS} steps"
        );
        assert_eq!(Path.words(), longer);
    }
}
