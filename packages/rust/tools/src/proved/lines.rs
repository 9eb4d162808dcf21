// Made by scripts/rust_crate from crates/rapidhash_tool/src/lines.rt: change that file.

//! The output of a run.

use crate::faults::CliFault;
use crate::usage::help;
use crate::version::RapidhashVersion;
use rapidhash_tool::kit::itoa::write_digits;
use rapidhash_tool::kit::alloc::Allocator;
use std::io::{Read, Write};

// The digits of 2^64 - 1, and a newline.
const LINE: usize = 21;

/// Prints the hash of all that a reader has left: its decimal digits and a newline.
///
/// After [`CliFault::Write`] a beginning of that line was written, but not all of it; after any
/// other error nothing was. It does not flush. The errors of reading are those of
/// [`RapidhashVersion::hash_stdin`].
pub fn run_stdin<A: Allocator, R: Read, W: Write>(
    alloc: A,
    version: &RapidhashVersion,
    input: R,
    out: &mut W,
) -> Result<(), CliFault> {
    let hash = version.hash_stdin(alloc, input)?;
    write_number(out, hash)
}

/// Prints the hash of a file's bytes: its decimal digits and a newline. It allocates nothing.
///
/// V1 and V2 hash the first `len` bytes; the others hash all bytes and ignore `len`.
///
/// After [`CliFault::Write`] a beginning of that line was written, but not all of it; after
/// [`CliFault::File`] nothing was. It does not flush.
pub fn run_file<R: Read, W: Write>(
    version: &RapidhashVersion,
    reader: R,
    len: u64,
    out: &mut W,
) -> Result<(), CliFault> {
    let hash = version.hash_file(reader, len)?;
    write_number(out, hash)
}

/// Prints the help. The only error is [`CliFault::Write`]: a beginning of it was written, but not
/// all of it. It does not flush.
pub fn run_help<W: Write>(out: &mut W) -> Result<(), CliFault> {
    write_whole(out, help().as_bytes())
}

// Writes the number's line to the end of `line`, and returns where it starts.
fn fill_line(number: u64, line: &mut [u8; LINE]) -> usize {
    line[LINE - 1] = b'\n';
    write_digits(number, line, LINE - 1)
}

// Writes all of `bytes`, or stops at a write that fails or accepts no byte.
fn write_whole<W: Write>(out: &mut W, bytes: &[u8]) -> Result<(), CliFault> {
    let mut at = 0usize;
    while at < bytes.len() {
        match out.write(&bytes[at..]) {
            Ok(0) | Err(_) => return Err(CliFault::Write),
            Ok(taken) => at += taken,
        }
    }
    Ok(())
}

// Writes the number's line. It allocates nothing.
fn write_number<W: Write>(out: &mut W, number: u64) -> Result<(), CliFault> {
    let mut line = [0u8; LINE];
    let start = fill_line(number, &mut line);
    write_whole(out, &line[start..])
}
