// Made by scripts/rust_crate from crates/rapidhash_portable/src/kernel/v1.rt: change that file.

//! V1 of a slice.

use crate::lanes::wide_lanes;
use crate::tail::{close, fold_tail};
use crate::words::{last_16, short_words_v1};

const_fn! {
/// Returns the hash of `bytes`. `AVALANCHE` mixes the last product once more, `PROTECTED` mixes
/// each product with its factors, `V1_BUG` folds a row at 48 bytes, and `COMPACT` changes the code
/// but no value.
#[inline(always)]
pub const fn hash<const AVALANCHE: bool, const COMPACT: bool, const PROTECTED: bool, const V1_BUG: bool>(
    bytes: &[u8],
    seed: u64,
    secrets: &[u64; 3],
) -> u64 {
    let n = bytes.len();
    if n > 16 {
        return long::<AVALANCHE, COMPACT, PROTECTED, V1_BUG>(bytes, seed, secrets);
    }
    close_short::<AVALANCHE, PROTECTED>(bytes, short_words_v1(bytes), seed, secrets)
}
}

const_fn! {
/// Returns the hash of at most 16 bytes from their two words.
#[inline(always)]
const fn close_short<const AVALANCHE: bool, const PROTECTED: bool>(
    bytes: &[u8],
    words: (u64, u64),
    seed: u64,
    secrets: &[u64; 3],
) -> u64 {
    let len = bytes.len() as u64;
    let [first, second, _] = *secrets;
    close::<AVALANCHE, PROTECTED>(words, seed ^ len, second, (first ^ len, second))
}
}

const_fn! {
/// Returns the hash above 16 bytes. A message that has no row makes no call.
#[inline(always)]
const fn long<const AVALANCHE: bool, const COMPACT: bool, const PROTECTED: bool, const V1_BUG: bool>(
    bytes: &[u8],
    seed: u64,
    secrets: &[u64; 3],
) -> u64 {
    let n = bytes.len();
    if n <= longest_rowless::<V1_BUG>() {
        let len = n as u64;
        close_tail::<AVALANCHE, PROTECTED>(bytes, bytes, len, seed ^ len, secrets)
    } else {
        with_rows::<AVALANCHE, COMPACT, PROTECTED, V1_BUG>(bytes, seed, secrets)
    }
}
}

const_fn! {
/// Returns the hash of a message that has a row. With rows of three lanes it is short enough to be
/// inlined.
#[inline]
const fn with_rows<const AVALANCHE: bool, const COMPACT: bool, const PROTECTED: bool, const V1_BUG: bool>(
    bytes: &[u8],
    seed: u64,
    secrets: &[u64; 3],
) -> u64 {
    let len = bytes.len() as u64;
    let (joined, tail) = wide_lanes::<3, 0, COMPACT, PROTECTED>(bytes, seed ^ len, secrets);
    close_tail::<AVALANCHE, PROTECTED>(tail, bytes, len, joined, secrets)
}
}

const_fn! {
/// Returns the hash of `len` bytes, more than 16, from the joined lanes, the tail, and bytes that
/// end in the message's last 16.
#[inline(always)]
pub(crate) const fn close_tail<const AVALANCHE: bool, const PROTECTED: bool>(
    tail: &[u8],
    ending: &[u8],
    len: u64,
    joined: u64,
    secrets: &[u64; 3],
) -> u64 {
    let (s, mut seed) = (secrets, joined);
    if tail.len() > 16 {
        seed ^= s[1];
    }
    seed = fold_tail::<2, PROTECTED>(tail, &[s[2], s[2]], seed);
    close::<AVALANCHE, PROTECTED>(last_16(ending), seed, s[1], (s[0] ^ len, s[1]))
}
}

const_fn! {
/// Returns the length of the longest message without a row.
#[inline(always)]
const fn longest_rowless<const V1_BUG: bool>() -> usize {
    if V1_BUG { 47 } else { 48 }
}
}
