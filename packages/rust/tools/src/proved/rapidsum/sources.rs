// Made by scripts/rust_crate from crates/rapidsum/src/sources.rt: change that file.

//! The names of the files in a list of `--files0-from`.

use rapidhash_tool::kit::Vec;
use crate::list::next_line;
use rapidhash_tool::kit::alloc::{AllocError, Global};

/// Returns the names in a text, each up to a zero byte or the end of the text.
///
/// # Errors
///
/// If an allocation fails.
pub fn names_in(alloc: Global, text: &[u8]) -> Result<Vec<&[u8]>, AllocError> {
    let mut names = Vec::new(alloc);
    let mut rest = text;
    while !rest.is_empty() {
        let (name, more) = next_line(rest, 0);
        names.push(name)?;
        rest = more;
    }
    Ok(names)
}
