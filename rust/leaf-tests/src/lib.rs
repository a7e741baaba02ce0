//! The proved leaves as safe Rust functions.
//!
//! They come from `target/staticlib/libtest_leaves.a`, which `tools/build test_leaves` makes at the
//! project's root. Where it is missing, every call fails and says so.

#[cfg(leaves)]
mod calls;
#[cfg(leaves)]
pub use calls::*;

#[cfg(not(leaves))]
mod missing;
#[cfg(not(leaves))]
pub use missing::*;

/// The answer of no operator and of no expression.
pub const NOTHING: u32 = 256;
