//! Where and why bytes are refused as a plan.
//!
//! This is ordinary Rust beside the proved reader, and tested to give the same
//! number; [`Plan::open`] goes by the reader.

use std::error::Error;
use std::fmt;

use super::{LevelRule, Plan};
use crate::{MAX_PLAN, Refusal};

/// Why bytes are no plan, with the place.
#[derive(Debug, Clone, Copy, PartialEq, Eq)]
#[non_exhaustive]
pub enum PlanFault {
    /// There are more bytes than a plan may have.
    TooLong,
    /// They end at this offset, inside an item.
    Ends(usize),
    /// The byte at this offset has no meaning, or counts too many steps.
    Byte(usize),
    /// The plan ends at this offset, and the bytes do not.
    Follows(usize),
    /// A level breaks a rule.
    Level {
        /// The level's number, from 0.
        level: usize,
        /// Where it begins.
        offset: usize,
        /// The first rule that it breaks.
        rule: LevelRule,
    },
}

impl PlanFault {
    /// Why bytes are refused as a plan; none where they are accepted.
    ///
    /// The output buffer is taken to be long enough, as [`Plan::open`] has it.
    pub fn of(bytes: &[u8]) -> Option<Self> {
        if bytes.len() > MAX_PLAN {
            return Some(PlanFault::TooLong);
        }
        let (plan, starts) = match Plan::read(bytes) {
            Ok(read) => read,
            Err(fault) => return Some(fault),
        };
        let mut levels = plan.levels.iter().zip(starts).enumerate();
        levels.find_map(|(level, (data, offset))| {
            let rule = data.broken()?;
            Some(PlanFault::Level {
                level,
                offset,
                rule,
            })
        })
    }

    /// The refusal that the reader gives.
    pub const fn refusal(self) -> Refusal {
        match self {
            PlanFault::TooLong => Refusal::PlanTooLong,
            PlanFault::Ends(_) => Refusal::PlanEnds,
            PlanFault::Byte(_) | PlanFault::Follows(_) => Refusal::PlanByte,
            PlanFault::Level { .. } => Refusal::PlanRule,
        }
    }

    /// Where it is met, in bytes from the plan's start.
    pub const fn offset(self) -> usize {
        match self {
            PlanFault::TooLong => MAX_PLAN,
            PlanFault::Ends(at) | PlanFault::Byte(at) | PlanFault::Follows(at) => at,
            PlanFault::Level { offset, .. } => offset,
        }
    }
}

impl fmt::Display for PlanFault {
    fn fmt(&self, f: &mut fmt::Formatter<'_>) -> fmt::Result {
        let (refusal, at) = (self.refusal(), self.offset());
        writeln!(f, "refused by {}: {refusal}", refusal.number())?;
        write!(f, "  at offset {at} ({at:x} hex): ")?;
        match self {
            PlanFault::TooLong => write!(f, "no plan goes on here"),
            PlanFault::Ends(_) => write!(f, "more bytes are expected"),
            PlanFault::Byte(_) => write!(f, "this byte has no meaning, or counts too many steps"),
            PlanFault::Follows(_) => write!(f, "the plan is at its end, and bytes follow"),
            PlanFault::Level { level, rule, .. } => write!(f, "level {level}: {rule}"),
        }
    }
}

impl Error for PlanFault {}
