//! The modules made of the cut text.

#![cfg(fjord_bodies)]

/// The bodies as they stand in the source, and `drive.rs` behind them.
#[allow(dead_code, unused_imports, clippy::all)]
pub mod original {
    use crate::standin::*;
    use std::sync::Arc;

    use self::Compare as CompareOp;

    include!(concat!(env!("OUT_DIR"), "/bodies.rs"));
}

/// The copy with what document 02 changes, which also says which node makes each
/// entry.
#[allow(dead_code, unused_imports, unreachable_code, clippy::all)]
pub mod noted {
    use crate::standin::*;
    use std::sync::Arc;

    use self::Compare as CompareOp;

    include!(concat!(env!("OUT_DIR"), "/noted.rs"));
}

/// The copy that counts its branches.
#[allow(
    dead_code,
    unused_imports,
    unused_braces,
    unreachable_code,
    clippy::all
)]
pub mod counted {
    use crate::coverage::{Seen, hit};
    use crate::standin::*;
    use std::sync::Arc;

    use self::Compare as CompareOp;

    include!(concat!(env!("OUT_DIR"), "/counted.rs"));
}
