// Made by scripts/rust_crate from crates/rapidhash_portable/src/kernel/v2.rt: change that file.

//! V2 of a slice, in its three minors.

use crate::lanes::mixed_lanes;
use crate::tail::{close, fold_tail};
use crate::util::ALTERNATING_BITS;
use crate::words::{last_16, short_words_v2};

const_fn! {
/// Returns the hash of `bytes`. `AVALANCHE` mixes the last product once more, `PROTECTED` mixes
/// each product with its factors, and `COMPACT` changes the code but no value.
#[inline(always)]
pub const fn hash<const MINOR: u8, const AVALANCHE: bool, const COMPACT: bool, const PROTECTED: bool>(
    bytes: &[u8],
    seed: u64,
    secrets: &[u64; 7],
) -> u64 {
    let n = bytes.len();
    let start = seed ^ n as u64;
    if n > 16 {
        return long::<MINOR, AVALANCHE, COMPACT, PROTECTED>(bytes, start, secrets);
    }
    close_short::<AVALANCHE, PROTECTED>(bytes, short_words_v2::<MINOR>(bytes), start, secrets)
}
}

const_fn! {
/// Returns the hash of at most 16 bytes from their two words and the seed with their length.
#[inline(always)]
const fn close_short<const AVALANCHE: bool, const PROTECTED: bool>(
    bytes: &[u8],
    words: (u64, u64),
    start: u64,
    secrets: &[u64; 7],
) -> u64 {
    let len = bytes.len() as u64;
    let second = secrets[1];
    close::<AVALANCHE, PROTECTED>(words, start, second, (ALTERNATING_BITS ^ len, second))
}
}

const_fn! {
/// Returns the hash above 16 bytes from the seed with the length. A message that has no row makes
/// no call. It is cold so that shorter messages take no jump.
#[cold]
#[inline(always)]
const fn long<const MINOR: u8, const AVALANCHE: bool, const COMPACT: bool, const PROTECTED: bool>(
    bytes: &[u8],
    start: u64,
    secrets: &[u64; 7],
) -> u64 {
    let n = bytes.len();
    if n <= longest_rowless::<MINOR>() {
        without_rows::<MINOR, AVALANCHE, PROTECTED>(bytes, start, secrets)
    } else {
        with_rows::<MINOR, AVALANCHE, COMPACT, PROTECTED>(bytes, start, secrets)
    }
}
}

const_fn! {
/// Returns the hash above 16 bytes of a message that has no row. Up to 32 bytes it tests no further
/// pair.
#[inline(always)]
const fn without_rows<const MINOR: u8, const AVALANCHE: bool, const PROTECTED: bool>(
    bytes: &[u8],
    start: u64,
    secrets: &[u64; 7],
) -> u64 {
    let len = bytes.len() as u64;
    if len <= 32 {
        let seed = fold_tail::<1, PROTECTED>(bytes, &[secrets[0]], start);
        return close_long::<AVALANCHE, PROTECTED>(bytes, len, seed, secrets);
    }
    let table = [secrets[0], secrets[1], secrets[last_place::<MINOR>()]];
    let seed = fold_tail::<3, PROTECTED>(bytes, &table, start);
    close_long::<AVALANCHE, PROTECTED>(bytes, len, seed, secrets)
}
}

const_fn! {
/// Returns the hash of a message that has a row, out of line.
#[cold]
#[inline(never)]
const fn with_rows<const MINOR: u8, const AVALANCHE: bool, const COMPACT: bool, const PROTECTED: bool>(
    bytes: &[u8],
    start: u64,
    secrets: &[u64; 7],
) -> u64 {
    let len = bytes.len() as u64;
    let (joined, tail) = mixed_lanes::<COMPACT, PROTECTED>(bytes, start, secrets);
    close_tail::<AVALANCHE, PROTECTED>(tail, bytes, len, joined, secrets)
}
}

const_fn! {
/// Returns the hash of `len` bytes that have a row, from the joined lanes, the tail, and bytes that
/// end in the message's last 16.
#[inline(always)]
pub(crate) const fn close_tail<const AVALANCHE: bool, const PROTECTED: bool>(
    tail: &[u8],
    ending: &[u8],
    len: u64,
    joined: u64,
    secrets: &[u64; 7],
) -> u64 {
    let seed = fold_tail::<2, PROTECTED>(tail, &[secrets[2], secrets[2]], joined);
    close_long::<AVALANCHE, PROTECTED>(ending, len, seed, secrets)
}
}

const_fn! {
/// Returns the hash of `len` bytes, more than 16, from the seed after all pairs, and bytes that end
/// in the message's last 16.
#[inline(always)]
const fn close_long<const AVALANCHE: bool, const PROTECTED: bool>(
    ending: &[u8],
    len: u64,
    seed: u64,
    secrets: &[u64; 7],
) -> u64 {
    close::<AVALANCHE, PROTECTED>(last_16(ending), seed, secrets[1], (ALTERNATING_BITS ^ len, secrets[1]))
}
}

const_fn! {
/// Returns the length of the longest message without a row.
#[inline(always)]
const fn longest_rowless<const MINOR: u8>() -> usize {
    if MINOR == 0 { 56 } else { 64 }
}
}

const_fn! {
/// Returns the index of the secret for the third pair of a message without a row.
#[inline(always)]
const fn last_place<const MINOR: u8>() -> usize {
    if MINOR < 2 { 0 } else { 1 }
}
}
