// Made by scripts/rust_crate from crates/rapidhash_portable/src/in_memory.rt: change that file.

//! The core of the in-memory hasher: one value of a byte list, a seed and secrets, over the same
//! lanes and tails as the portable hashes. It is private.

use crate::lanes::{mixed_lanes, wide_lanes};
use crate::tail::{close, fold_tail};
use crate::util::ALTERNATING_BITS;
use crate::words::{last_16, short_words_in_memory};

/// The longest message that is hashed with no row.
const LONGEST_ROWLESS: usize = 48;

/// The longest message that is hashed by rows of three pairs alone.
const LONGEST_NARROW: usize = 400;

/// Returns the value of `bytes` with the given seed and secrets. `AVALANCHE` mixes the last product
/// once more, `PROTECTED` XORs the factors into each product, and `COMPACT` changes the code but
/// no value.
#[inline(always)]
pub fn core_hash<const AVALANCHE: bool, const COMPACT: bool, const PROTECTED: bool>(
    bytes: &[u8],
    seed: u64,
    secrets: &[u64; 7],
) -> u64 {
    let n = bytes.len();
    if n > 16 {
        return long::<AVALANCHE, COMPACT, PROTECTED>(bytes, seed, secrets);
    }
    close_sum::<AVALANCHE, PROTECTED>(bytes, short_words_in_memory(bytes), seed, secrets)
}

/// Returns the value above 16 bytes. It is out of line and cold, so that the code for short
/// messages, which is inlined into each caller, has no jump over it and saves no registers for it.
/// The rows are out of line again, so that a message without a row sets up no lanes.
#[cold]
#[inline(never)]
fn long<const AVALANCHE: bool, const COMPACT: bool, const PROTECTED: bool>(
    bytes: &[u8],
    seed: u64,
    secrets: &[u64; 7],
) -> u64 {
    if bytes.len() > LONGEST_ROWLESS {
        return with_rows::<AVALANCHE, COMPACT, PROTECTED>(bytes, seed, secrets);
    }
    close_tail::<AVALANCHE, PROTECTED>(bytes, bytes, seed, secrets)
}

/// Returns the value of a message with a row. Rows of three pairs alone are at most eight, too few
/// to fold two at a time.
#[inline(never)]
fn with_rows<const AVALANCHE: bool, const COMPACT: bool, const PROTECTED: bool>(
    bytes: &[u8],
    seed: u64,
    secrets: &[u64; 7],
) -> u64 {
    if bytes.len() > LONGEST_NARROW {
        return with_wide_rows::<AVALANCHE, COMPACT, PROTECTED>(bytes, seed, secrets);
    }
    let (joined, tail) = wide_lanes::<3, 0, true, PROTECTED>(bytes, seed, secrets);
    close_tail::<AVALANCHE, PROTECTED>(tail, bytes, joined, secrets)
}

/// Returns the value of a longer message, with rows of seven pairs and then of three.
#[inline(never)]
fn with_wide_rows<const AVALANCHE: bool, const COMPACT: bool, const PROTECTED: bool>(
    bytes: &[u8],
    seed: u64,
    secrets: &[u64; 7],
) -> u64 {
    let (joined, tail) = mixed_lanes::<COMPACT, PROTECTED>(bytes, seed, secrets);
    close_tail::<AVALANCHE, PROTECTED>(tail, bytes, joined, secrets)
}

/// Returns the value above 16 bytes, from the joined lanes and the tail.
#[inline(always)]
fn close_tail<const AVALANCHE: bool, const PROTECTED: bool>(
    tail: &[u8],
    bytes: &[u8],
    joined: u64,
    secrets: &[u64; 7],
) -> u64 {
    let seed = fold_tail::<2, PROTECTED>(tail, &[secrets[0], secrets[0]], joined);
    close_sum::<AVALANCHE, PROTECTED>(bytes, last_16(bytes), seed, secrets)
}

/// Returns the value, from the last words and the seed after all pairs.
#[inline(always)]
fn close_sum<const AVALANCHE: bool, const PROTECTED: bool>(
    bytes: &[u8],
    words: (u64, u64),
    seed: u64,
    secrets: &[u64; 7],
) -> u64 {
    let sum = seed.wrapping_add(bytes.len() as u64);
    close::<AVALANCHE, PROTECTED>(words, sum, secrets[0], (ALTERNATING_BITS ^ sum, secrets[1]))
}
