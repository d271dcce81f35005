use crate::{MAX_PLAN, MIN_WORK};

/// A plan buffer and a work area of the right sizes: no plan is too long for
/// the one, and the other is long enough.
///
/// They are made once, on the heap, and serve any number of compiles, of which
/// none allocates. Where there is no heap, lend slices to
/// [`compile_into`](crate::compile_into).
#[derive(Clone)]
pub struct Buffers {
    pub(crate) plan: Box<[u8]>,
    pub(crate) work: Box<[u8]>,
}

impl Buffers {
    /// A plan buffer of [`MAX_PLAN`] and a work area of [`MIN_WORK`] bytes.
    pub fn new() -> Self {
        Self {
            plan: vec![0; MAX_PLAN].into(),
            work: vec![0; MIN_WORK].into(),
        }
    }
}

impl Default for Buffers {
    fn default() -> Self {
        Self::new()
    }
}

impl std::fmt::Debug for Buffers {
    /// The sizes; the bytes would fill pages.
    fn fmt(&self, f: &mut std::fmt::Formatter<'_>) -> std::fmt::Result {
        f.debug_struct("Buffers")
            .field("plan", &self.plan.len())
            .field("work", &self.work.len())
            .finish()
    }
}
