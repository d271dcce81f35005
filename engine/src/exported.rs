//! The exported functions: their one declaration and their one call.
//!
//! tests/declarations.rs holds the declarations against the Rattle source
//! (crates/) and the archive: whoever changes one changes the others. The only
//! `unsafe` of this crate is here.
#![allow(unsafe_code)]

unsafe extern "C" {
    /// In Rattle `(file: &[u8], plan: &mut [u8], work: &mut [u8]) -> u64`; each
    /// slice is a pointer, then a length.
    fn sinalvento_compile(
        file: *const u8,
        file_len: usize,
        plan: *mut u8,
        plan_len: usize,
        work: *mut u8,
        work_len: usize,
    ) -> u64;

    /// In Rattle `(plan: &[u8], out: &mut [u8], work: &mut [u8]) -> u64`.
    fn sinalvento_read(
        plan: *const u8,
        plan_len: usize,
        out: *mut u8,
        out_len: usize,
        work: *mut u8,
        work_len: usize,
    ) -> u64;
}

/// An exported function: what is read, what is written, the work area.
type Exported = unsafe extern "C" fn(*const u8, usize, *mut u8, usize, *mut u8, usize) -> u64;

fn lend(function: Exported, input: &[u8], output: &mut [u8], work: &mut [u8]) -> u64 {
    // SAFETY: each pointer and length is a slice's own, and what is lent `&mut`
    // overlaps nothing. The functions require nothing else, and are proved to
    // touch nothing else.
    unsafe {
        function(
            input.as_ptr(),
            input.len(),
            output.as_mut_ptr(),
            output.len(),
            work.as_mut_ptr(),
            work.len(),
        )
    }
}

/// The exported compile as it is: refusal number × 65,536 + plan length.
///
/// The number is 0 for an accepted file; the length is 0 for a refused one.
/// [`compile`](crate::compile) and [`compile_into`](crate::compile_into) say the
/// same in Rust's terms.
pub fn call(file: &[u8], plan: &mut [u8], work: &mut [u8]) -> u64 {
    lend(sinalvento_compile, file, plan, work)
}

/// The exported plan reader as it is: refusal number × 65,536 + plan length.
///
/// [`read_into`](crate::read_into) says the same in Rust's terms, and
/// [`Plan::open`](crate::Plan::open) has the plan as data.
pub fn call_read(plan: &[u8], out: &mut [u8], work: &mut [u8]) -> u64 {
    lend(sinalvento_read, plan, out, work)
}
