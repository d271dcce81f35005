//! The compile: refusals 1 and 2, reading, the checks, the walk with 19, the bytes.

use std::panic::{AssertUnwindSafe, catch_unwind, resume_unwind};

use crate::file::{MAX_FILE, MIN_WORK, RuleFile};
use crate::literal::walked;
use crate::plan::{Plan, base_bytes, plan_bytes};
use crate::standin::OutOfFuel;
use crate::{check, read};

/// Whether this build found the source of the bodies.
pub const HAS_BODIES: bool = cfg!(fjord_bodies);

/// One walk over a checked file; the number is how many looks at a node it has.
pub type Walk = fn(&RuleFile, u64) -> Plan;

/// What the front half makes of a file: refusals 1 to 14, or its tables.
pub fn front(file: &[u8], work_len: usize) -> Result<RuleFile, u8> {
    if file.len() > MAX_FILE {
        return Err(1);
    }
    if work_len < MIN_WORK {
        return Err(2);
    }
    let file = read::read(file)?;
    check::check(&file)?;
    Ok(file)
}

/// The plan, or the refusal's number, by the copy of the bodies that does what
/// document 02 adds and notes the nodes. The caller gives the stack: a file may nest
/// its nodes some 2,000 deep (see [`on_large_stack`]).
///
/// # Panics
/// Where the build found no source of the bodies ([`HAS_BODIES`]).
pub fn compile(file: &[u8], plan_len: usize, work_len: usize) -> Result<Vec<u8>, u8> {
    let file = front(file, work_len)?;
    plan_bytes(&walked(noted, &file, u64::MAX)?, plan_len)
}

/// As [`compile`], by the original bodies themselves: in the base's form, which has
/// no nodes. Where they report code 4 they are no reference, and neither where 19 is
/// given, which they do not know (`run::reference`).
pub fn compile_base(file: &[u8], plan_len: usize, work_len: usize) -> Result<Vec<u8>, u8> {
    let file = front(file, work_len)?;
    base_bytes(&original(&file, u64::MAX), plan_len)
}

/// As [`compile_base`], but none where the bodies look at more than `fuel` nodes.
pub fn base_within(
    walk: Walk,
    fuel: u64,
    file: &[u8],
    plan_len: usize,
    work_len: usize,
) -> Option<Result<Vec<u8>, u8>> {
    let plan = plan_within(walk, fuel, file, work_len)?;
    Some(plan.and_then(|plan| base_bytes(&plan, plan_len)))
}

/// The plan as data, before it is written, or the refusal's number, 19 included; none
/// where the bodies look at more than `fuel` nodes.
pub fn plan_within(
    walk: Walk,
    fuel: u64,
    file: &[u8],
    work_len: usize,
) -> Option<Result<Plan, u8>> {
    let file = match front(file, work_len) {
        Ok(file) => file,
        Err(number) => return Some(Err(number)),
    };
    match catch_unwind(AssertUnwindSafe(|| walked(walk, &file, fuel))) {
        Ok(outcome) => Some(outcome),
        Err(thrown) if thrown.is::<OutOfFuel>() => None,
        Err(thrown) => resume_unwind(thrown),
    }
}

#[cfg(fjord_bodies)]
pub fn original(file: &RuleFile, fuel: u64) -> Plan {
    crate::bodies::original::walk(file, fuel)
}

#[cfg(not(fjord_bodies))]
pub fn original(_: &RuleFile, _: u64) -> Plan {
    panic!("built without the bodies: FJORD_SRC named no source")
}

#[cfg(not(fjord_bodies))]
pub use self::original as noted;
#[cfg(fjord_bodies)]
pub use crate::noted::noted;

/// The line that program `plan` prints for an outcome.
pub fn line(outcome: &Result<Vec<u8>, u8>) -> String {
    match outcome {
        Ok(plan) => hex(plan),
        Err(number) => format!("refused {number}"),
    }
}

pub fn hex(bytes: &[u8]) -> String {
    bytes.iter().map(|byte| format!("{byte:02x}")).collect()
}

pub fn unhex(text: &str) -> Option<Vec<u8>> {
    if !text.len().is_multiple_of(2) {
        return None;
    }
    let digit = |byte: u8| (byte as char).to_digit(16).map(|digit| digit as u8);
    text.as_bytes()
        .chunks(2)
        .map(|pair| Some(digit(pair[0])? * 16 + digit(pair[1])?))
        .collect()
}

const STACK: usize = 256 << 20;

/// Runs `work` on a thread whose stack holds the deepest walk.
pub fn on_large_stack<T: Send + 'static>(work: impl FnOnce() -> T + Send + 'static) -> T {
    let thread = std::thread::Builder::new().stack_size(STACK).spawn(work);
    match thread.expect("a thread can be started").join() {
        Ok(done) => done,
        Err(thrown) => resume_unwind(thrown),
    }
}
