// Made by scripts/rust_crate from crates/rapidsum/src/arguments.rt: change that file.

//! The arguments as bytes.

use rapidhash_tool::kit::Vec;
use crate::problem::Problem;
use rapidhash_tool::kit::alloc::Allocator;
use rapidhash_tool::kit::env::{Env, FillError};

/// The longest argument of a Linux with pages of 4 KiB.
const LONGEST: usize = 131072;

/// Returns the arguments after the program's name.
///
/// # Errors
///
/// If an allocation fails, or an argument is too long.
pub fn arguments_of<R: Env, A: Allocator + Copy>(
    rt: &R,
    alloc: A,
) -> Result<Vec<Vec<u8, A>, A>, Problem> {
    let mut words = Vec::new(alloc);
    let mut buffer = [0u8; LONGEST];
    for i in 1..usize::MAX {
        match rt.arg(i, &mut buffer) {
            Ok(len) => {
                let mut word = Vec::new(alloc);
                word.extend_from_slice(&buffer[..len])?;
                words.push(word)?;
            }
            Err(FillError::NotPresent) => return Ok(words),
            Err(FillError::TooLong) => return Err(Problem::Long),
        }
    }
    Ok(words)
}
