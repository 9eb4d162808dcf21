// Made by scripts/rust_crate from crates/rapidhash_portable/src/words.rt: change that file.

//! The two words that a message ends in: its last 16 bytes, or all of at most 16 bytes.

use crate::util::{read_u32, read_u32_combined, read_u64};

const_fn! {
/// Returns the last 16 bytes as two words.
#[inline(always)]
pub(crate) const fn last_16(bytes: &[u8]) -> (u64, u64) {
    let n = bytes.len();
    (read_u64(bytes, n - 16), read_u64(bytes, n - 8))
}
}

const_fn! {
/// Returns the first, the middle and the last of 1 to 3 bytes in one word.
#[inline(always)]
const fn three_bytes(bytes: &[u8]) -> u64 {
    let n = bytes.len();
    ((bytes[0] as u64) << 56) | ((bytes[n / 2] as u64) << 32) | bytes[n - 1] as u64
}
}

const_fn! {
/// Returns the two words of at most 16 bytes in V1.
#[inline(always)]
pub(crate) const fn short_words_v1(bytes: &[u8]) -> (u64, u64) {
    let n = bytes.len();
    if n >= 8 {
        (read_u32_combined(bytes, 0, n - 4), read_u32_combined(bytes, 4, n - 8))
    } else if n >= 4 {
        let all = read_u32_combined(bytes, 0, n - 4);
        (all, all)
    } else if n > 0 {
        (three_bytes(bytes), 0)
    } else {
        (0, 0)
    }
}
}

const_fn! {
/// Returns the two words of at most 16 bytes in V2.
#[inline(always)]
pub(crate) const fn short_words_v2<const MINOR: u8>(bytes: &[u8]) -> (u64, u64) {
    let n = bytes.len();
    if n >= 4 {
        words_from_4(bytes)
    } else if n == 0 {
        (0, 0)
    } else if MINOR < 2 {
        (three_bytes(bytes), 0)
    } else {
        let (first, middle, last) = (bytes[0], bytes[n / 2], bytes[n - 1]);
        ((first as u64) << 56 | last as u64, middle as u64)
    }
}
}

const_fn! {
/// Returns the two words of at most 16 bytes in V3 and its relatives.
#[inline(always)]
pub(crate) const fn short_words_v3(bytes: &[u8]) -> (u64, u64) {
    let n = bytes.len();
    if n >= 4 {
        words_from_4(bytes)
    } else if n == 0 {
        (0, 0)
    } else {
        let (first, middle, last) = (bytes[0], bytes[n / 2], bytes[n - 1]);
        ((first as u64) << 45 | last as u64, middle as u64)
    }
}
}

const_fn! {
/// Returns the two words of at most 16 bytes in the in-memory core: those of V3. Its first test is
/// that of 8 bytes, which most keys have.
#[inline(always)]
pub(crate) const fn short_words_in_memory(bytes: &[u8]) -> (u64, u64) {
    let n = bytes.len();
    if n >= 8 { (read_u64(bytes, 0), read_u64(bytes, n - 8)) } else { short_words_below_8(bytes) }
}
}

const_fn! {
/// Returns the two words of fewer than 8 bytes. It is cold, so that the code for more has no jump.
#[cold]
#[inline(always)]
const fn short_words_below_8(bytes: &[u8]) -> (u64, u64) {
    short_words_v3(bytes)
}
}

const_fn! {
/// Returns the two words of 4 to 16 bytes in V2, and in V3 and its relatives.
#[inline(always)]
pub(crate) const fn words_from_4(bytes: &[u8]) -> (u64, u64) {
    let n = bytes.len();
    if n >= 8 {
        (read_u64(bytes, 0), read_u64(bytes, n - 8))
    } else {
        (read_u32(bytes, 0) as u64, read_u32(bytes, n - 4) as u64)
    }
}
}
