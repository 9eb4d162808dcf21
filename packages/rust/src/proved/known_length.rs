// Made by scripts/rust_crate from crates/rapidhash_portable/src/known_length.rt: change that file.

//! Reads of a known length: what the hashes of V1 and V2 over a reader share.
//!
//! [`fill`] makes all their reads, and none after its buffer is full. A message of at most
//! [`SHORT`] bytes is read whole and hashed as a slice. A longer one goes through one buffer of
//! [`BUFFER`] bytes in pieces of whole rows; a piece is read only while at least 16 more bytes
//! follow, so the last piece holds the message's last 16 bytes, and nothing is carried from piece
//! to piece.

use crate::kernel::NOT_COMPACT;
use crate::lanes::fold_rows;
use crate::reader::{Stop, read_once};
use std::io::Read;

/// The longest message that is read whole.
pub(crate) const SHORT: usize = 8192;

/// The buffer of a longer one: 65520 bytes, which are whole rows of three pairs and of seven, and
/// 16 more.
pub(crate) const BUFFER: usize = 65536;

/// Fills `buf`, and makes no read once it is full.
pub(crate) fn fill<R: Read + ?Sized>(reader: &mut R, buf: &mut [u8]) -> Result<(), Stop> {
    let mut at = 0;
    while at < buf.len() {
        match read_once(reader, &mut buf[at..]) {
            Ok(0) => return Err(Stop::Ended),
            Ok(n) => at += n,
            Err(failed) => return Err(Stop::Failed(failed)),
        }
    }
    Ok(())
}

/// Reads `len` bytes and folds them into lanes that start from `seed`, except the last 16 or more,
/// which it leaves at the head of the buffer. It returns the lanes and the number of bytes left.
pub(crate) fn fold_front<R: Read + ?Sized, const LANES: usize, const PROTECTED: bool>(
    reader: &mut R,
    buffer: &mut [u8],
    len: u64,
    seed: u64,
    secrets: &[u64],
) -> Result<([u64; LANES], usize), Stop> {
    let room = buffer.len() - 16;
    let mut lanes = [seed; LANES];
    let mut left = len;
    while left >= room as u64 + 16 {
        let piece = &mut buffer[..room];
        fill(reader, piece)?;
        fold_rows::<LANES, LANES, 0, NOT_COMPACT, PROTECTED>(&mut lanes, piece, secrets);
        left -= room as u64;
    }
    let last = left as usize;
    fill(reader, &mut buffer[..last])?;
    Ok((lanes, last))
}
