use std::fmt;

/// What a plan reports of a pattern that the compile could not use, by the code
/// that stands in the plan.
///
/// A diagnostic refuses nothing: the level stands, and matches more facts than
/// its designer meant.
#[derive(Debug, Clone, Copy, PartialEq, Eq, PartialOrd, Ord, Hash)]
#[non_exhaustive]
pub enum Diagnostic {
    /// A Disjunction stands in a key.
    NyiDisjunction,
    /// A reference that was not fetched is read, or an alternative of what is no
    /// union's field.
    NyiFactField,
    /// A Never stands in a key.
    NyiNever,
    /// A field of a row is held against another field of the same row. No compile makes
    /// it any more, since such fields are tested
    /// ([`OwnField`](crate::plan::ResidualOp::OwnField)); a plan of an earlier version may
    /// have it, and is read.
    NyiRepeatedVariable,
    /// A field is read out of a value.
    NyiValueField,
    /// A key is held against a value, or against what was derived.
    NyiValueMatch,
    /// A field is held against a whole key.
    NyiWholeKey,
    /// A pattern's kind is not its field's.
    RejectTypeMismatch,
    /// A union's pattern has not exactly one alternative.
    RejectUnionArity,
    /// A union has no alternative of that name.
    RejectUnknownAlternative,
    /// A name or a read stands for nothing.
    RejectUnresolvedAccess,
    /// A code that this crate has no name for.
    Unknown(u8),
}

use Diagnostic::*;

impl Diagnostic {
    /// All that have a name here, in order.
    pub const ALL: [Diagnostic; 11] = [
        NyiDisjunction,
        NyiFactField,
        NyiNever,
        NyiRepeatedVariable,
        NyiValueField,
        NyiValueMatch,
        NyiWholeKey,
        RejectTypeMismatch,
        RejectUnionArity,
        RejectUnknownAlternative,
        RejectUnresolvedAccess,
    ];

    /// The diagnostic of a plan's code.
    pub fn from_code(code: u8) -> Self {
        let at = usize::from(code).checked_sub(1);
        let named = at.and_then(|at| Self::ALL.get(at));
        named.copied().unwrap_or(Unknown(code))
    }

    /// The code that stands in a plan.
    pub fn code(self) -> u8 {
        match self {
            Unknown(code) => code,
            named => 1 + Self::ALL.iter().take_while(|&&each| each != named).count() as u8,
        }
    }

    /// The name that the format's paper gives it.
    pub const fn name(self) -> &'static str {
        match self {
            NyiDisjunction => "NyiDisjunction",
            NyiFactField => "NyiFactField",
            NyiNever => "NyiNever",
            NyiRepeatedVariable => "NyiRepeatedVariable",
            NyiValueField => "NyiValueField",
            NyiValueMatch => "NyiValueMatch",
            NyiWholeKey => "NyiWholeKey",
            RejectTypeMismatch => "RejectTypeMismatch",
            RejectUnionArity => "RejectUnionArity",
            RejectUnknownAlternative => "RejectUnknownAlternative",
            RejectUnresolvedAccess => "RejectUnresolvedAccess",
            Unknown(_) => "Unknown",
        }
    }

    /// What the designer should change.
    pub const fn advice(self) -> &'static str {
        match self {
            NyiDisjunction => {
                "a key cannot hold alternatives yet: write one level for each of them"
            }
            NyiFactField => {
                "a reference is read whose row is not at hand (fetch it into a register), or an alternative of what is no union field"
            }
            NyiNever => {
                "a pattern that nothing matches stands in a key: drop the level, or the pattern"
            }
            NyiRepeatedVariable => {
                "an earlier version could not test that two fields of one row are equal: compile the rules again, and they are"
            }
            NyiValueField => {
                "a field cannot be read out of a fact's value yet: read it out of a key"
            }
            NyiValueMatch => {
                "a key cannot be held against a fact's value, or against a derived one, yet: hold it against a key's field"
            }
            NyiWholeKey => {
                "a field cannot be held against a whole key yet: name the key's field that it should equal"
            }
            RejectTypeMismatch => {
                "the pattern's kind is not its field's: write a text for a text, a number for a number, a row for a reference"
            }
            RejectUnionArity => "a union's pattern names exactly one alternative: leave one",
            RejectUnknownAlternative => {
                "the union has no alternative of this name: write one that its type lists"
            }
            RejectUnresolvedAccess => {
                "this stands for nothing: bind the name before it is used, and read only fields that its type has"
            }
            Unknown(_) => "this version of the crate does not know the code",
        }
    }
}

impl fmt::Display for Diagnostic {
    /// Its name and its advice.
    fn fmt(&self, f: &mut fmt::Formatter<'_>) -> fmt::Result {
        write!(f, "{}: {}", self.name(), self.advice())
    }
}
