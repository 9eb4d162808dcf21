// Made by scripts/rust_crate from crates/rapidhash_portable/src/kernel.rt: change that file.

//! The hashes of a slice over the arguments of the definition: bytes, a seed and secrets.
//! Each form is one function `hash`. It is private.
//!
//! Each is one close of at most 16 bytes and one tail, inlined into the caller, and the rows out of
//! line: larger bodies are not inlined in programs with the default profile of cargo.

pub mod v1;
pub mod v2;
pub mod v3;

/// For `AVALANCHE`: the last product is mixed once more.
pub const MIXED: bool = true;
/// For `COMPACT`, switched off: each iteration folds two rows.
pub const NOT_COMPACT: bool = false;
/// For `PROTECTED`: no product is mixed with its factors.
pub const PLAIN: bool = false;
/// For `PROTECTED`: each product is mixed with its factors.
#[allow(dead_code)]
pub const GUARDED: bool = true;
