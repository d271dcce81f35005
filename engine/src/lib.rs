//! Rule files to query plans, by a compile function that is proved.
//!
//! A rule file holds key patterns over facts; its plan says, level by level, by
//! which seek the engine finds the facts that match. The function under this
//! crate is written and proved in Rattle (crates/compile): for every file, and
//! for whatever the lent memory holds, its result and the final bytes of both
//! buffers are those of the written rules. This crate adds Rust's types.
//!
//! # Example
//!
//! One level, a room whose number is 7 and whose tag begins with `k`:
//!
//! ```
//! use sinalvento::{Buffers, Refusal, compile};
//!
//! # fn main() -> Result<(), Refusal> {
//! #[rustfmt::skip]
//! let file: &[u8] = &[
//!     3, 0,                               // names
//!         4, b'r', b'o', b'o', b'm',      //   0
//!         3, b't', b'a', b'g',            //   1
//!         1, b'k',                        //   2
//!     3, 0,                               // types
//!         0,                              //   0: Int
//!         1,                              //   1: Str
//!         4, 2, 0, 0, 0, 0, 1, 0, 1, 0,   //   2: Record { room: Int, tag: Str }
//!     1, 0,                               // predicates
//!         2, 0, 0xFF, 0xFF,               //   0: key type 2, no value
//!     3, 0,                               // nodes
//!         0, 7, 0, 0, 0, 0, 0, 0, 0,      //   0: 7
//!         6, 2, 0,                        //   1: Prefix "k"
//!         8, 2, 0, 0, 0, 0, 1, 0, 1, 0,   //   2: Record { room: node 0, tag: node 1 }
//!     0, 0, 0, 0, 0, 0, 0, 0, 0, 0,       // no bindings, hoisted, fetched, constraints, comparisons
//!     1, 0,                               // levels
//!         0, 0, 2, 0, 0, 0,               //   0: predicate 0, node 2, register 0
//! ];
//!
//! let mut buffers = Buffers::new();
//! let plan = compile(file, &mut buffers)?;
//!
//! #[rustfmt::skip]
//! assert_eq!(plan, [
//!     1, 0,                                           // one level
//!         2, 0, 0, 0, 1, 0,                           //   narrowings, closers, parts
//!         2,                                          //   seek: PrefixRange
//!             0, 9, 0, 2, 0x80, 0, 0, 0, 0, 0, 0, 7,  //     part: a text, Int 7
//!             0, 0,                                   //       which node 0 made
//!             2, 0, 3, b'k', 1, 0, 0,                 //     prefix "k" of field 1, no steps
//!             1, 0,                                   //       which node 1 made
//!         0,                                          //   no guide
//!         0, 0, 0, 0,                                 //   no residuals, nothing folded
//!     0, 0, 0, 0, 0, 0, 0, 0,                         // no bindings, constrained names, selects, diagnostics
//! ]);
//!
//! // A file that goes on after its last section.
//! let longer = [file, &[0]].concat();
//! let refusal = compile(&longer, &mut buffers).unwrap_err();
//! assert_eq!(refusal, Refusal::Follows);
//! assert_eq!(refusal.number(), 7);
//! assert_eq!(refusal.to_string(), "bytes follow the last section");
//! # Ok(())
//! # }
//! ```
//!
//! # For people
//!
//! [`explain`] says where and why a file is refused, or what its plan reports;
//! [`text`] has rule files as text; [`RuleFile`] and [`Plan`] are the two formats as
//! data. [`Plan::open`] has a plan's bytes accepted by the proved reader first;
//! [`Plan::shown`] and [`Plan::described`] are a plan in words, with the pattern that
//! made each part, range, guide and residual. All this is ordinary Rust beside the
//! proved functions, and tested against them.
//!
//! # Memory, stack and time
//!
//! A compile allocates nothing and keeps nothing: all it uses is what it is
//! lent, and the caller's stack, of which 256 KiB are enough for every file
//! (measured, not proved).
//!
//! Everyday files take microseconds, the largest ones less than a millisecond.
//! A file can be made that takes seconds, and a compile cannot be broken off:
//! files from strangers belong on a thread that may wait. docs/BENCH.md has the
//! figures.
//!
//! # Building
//!
//! The build script runs `tools/archive` at the repository's root, so
//! the Rattle kit's `rt` must be on the PATH. Where the archive is built
//! already, SINALVENTO_LIB names the directory that holds `libsinalvento.a`.

mod buffers;
mod diagnostic;
mod explain;
mod exported;
pub mod plan;
mod refusal;
pub mod rules;
pub mod text;

pub use buffers::Buffers;
pub use diagnostic::Diagnostic;
pub use explain::{Accepted, Explanation, Fault, Note, Overlooked, explain};
pub use exported::{call, call_read};
pub use plan::Plan;
pub use refusal::{Place, Refusal};
pub use rules::RuleFile;

/// The most bytes that a rule file may have.
pub const MAX_FILE: usize = 32_768;
/// The most bytes that a plan may have.
pub const MAX_PLAN: usize = 16_384;
/// The fewest bytes that a work area may have.
pub const MIN_WORK: usize = 65_536;

/// The plan of a rule file, in the buffer that holds it. A file of no bytes is
/// ten empty sections, and its plan ten zero bytes.
///
/// Afterwards the work area is all zero, and so is the plan buffer past the
/// plan, or whole after a refusal.
pub fn compile<'a>(file: &[u8], buffers: &'a mut Buffers) -> Result<&'a [u8], Refusal> {
    compile_into(file, &mut buffers.plan, &mut buffers.work)
}

/// As [`compile`], in slices that the caller lends, whatever they hold and
/// however long they are.
///
/// The plan stands at the start of `plan`. A work area below [`MIN_WORK`] bytes
/// is refused, and so is a plan that is longer than `plan`; [`MAX_PLAN`] bytes
/// are always enough.
pub fn compile_into<'a>(
    file: &[u8],
    plan: &'a mut [u8],
    work: &mut [u8],
) -> Result<&'a [u8], Refusal> {
    let result = call(file, plan, work);
    written(result, plan)
}

/// Reads a plan's bytes and writes them back to `out`, where the plan is one that
/// a viewer may draw; [`Plan::open`] then has it as data.
///
/// Every plan that a compile writes is accepted. Any other bytes are refused by
/// 15 to 18: [`PlanTooLong`](Refusal::PlanTooLong) by the lengths alone,
/// [`PlanEnds`](Refusal::PlanEnds), [`PlanByte`](Refusal::PlanByte) and
/// [`PlanRule`](Refusal::PlanRule). The work area may have any length, none
/// included. Afterwards it is all zero, and so is `out` past the plan, or whole
/// after a refusal.
pub fn read_into<'a>(plan: &[u8], out: &'a mut [u8], work: &mut [u8]) -> Result<&'a [u8], Refusal> {
    let result = call_read(plan, out, work);
    written(result, out)
}

/// What an exported function wrote, or its refusal.
fn written(result: u64, output: &[u8]) -> Result<&[u8], Refusal> {
    let (number, length) = (result >> 16, result & 0xFFFF);
    if number == 0 {
        return Ok(&output[..length as usize]);
    }
    Err(Refusal::given(number))
}
