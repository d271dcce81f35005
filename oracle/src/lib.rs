//! The oracle: fjord's own bodies over the tables of a rule file.
//!
//! Reading, the refusals and the plan's bytes are written from the format's
//! paper; the walk of each level is the original text, cut out at build time. The
//! original text knows no nodes of entries: a copy of it notes them.

mod bodies;
pub mod check;
pub mod compare;
pub mod compile;
pub mod coverage;
pub mod draw;
pub mod exact;
pub mod file;
pub mod fixed;
pub mod literal;
#[cfg(all(fjord_bodies, feature = "mutants"))]
pub mod mutants;
pub mod nodes;
#[cfg(fjord_bodies)]
mod noted;
pub mod plan;
pub mod read;
pub mod reread;
pub mod rng;
pub mod run;
pub mod shrink;
pub mod standin;
pub mod survey;
pub mod write;

pub use compile::{HAS_BODIES, base_within, compile, compile_base, front, line, on_large_stack};
