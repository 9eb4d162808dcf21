// Made by scripts/rust_crate from crates/rapidsum/src/sum.rt: change that file.

//! The line of a file, printed.

use crate::algorithm::Algorithm;
use crate::line::{Style, sum_of};
use crate::problem::Problem;
use crate::store::{Store, hash_named};
use rapidhash_tool::kit::alloc::Allocator;
use std::io::Write;

/// Writes the line of a file.
///
/// # Errors
///
/// If the file cannot be read, an allocation fails, or a write fails. After a failed write part of
/// the line may have been written, after another error nothing.
pub fn write_sum<S: Store, A: Allocator + Copy, W: Write>(
    alloc: A,
    store: &S,
    name: &[u8],
    algorithm: Algorithm,
    style: Style,
    out: &mut W,
) -> Result<(), Problem> {
    let hash = hash_named(alloc, store, name, algorithm).map_err(Problem::Read)?;
    let sum = sum_of(alloc, style, algorithm, hash, name)?;
    out.write_all(sum.as_slice()).map_err(Problem::Write)
}
