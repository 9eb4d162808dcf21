//! The reads and the product of the library, replaced by random functions of a key: a formula over them has another
//! value if a byte, a factor, or a place in it changes.

use std::sync::atomic::{AtomicU64, Ordering::Relaxed};

pub(crate) const ALTERNATING_BITS: u64 = 0xaaaa_aaaa_aaaa_aaaa;

/// Chooses the functions.
pub static KEY: AtomicU64 = AtomicU64::new(0);

/// Returns the value of function `tag` at two words.
pub fn random(tag: u64, first: u64, second: u64) -> u64 {
    let mut x = KEY.load(Relaxed) ^ tag.wrapping_mul(0x9e37_79b9_7f4a_7c15);
    for word in [first, second] {
        x ^= word;
        x = (x ^ x >> 32).wrapping_mul(0xd6e8_feb8_6659_fd93);
        x = (x ^ x >> 32).wrapping_mul(0xd6e8_feb8_6659_fd93);
        x ^= x >> 32;
    }
    x
}

/// Returns two functions of both factors, in either order.
pub fn rapid_mum<const PROTECTED: bool>(a: u64, b: u64) -> (u64, u64) {
    let (least, most) = (a.min(b), a.max(b));
    let (low, high) = (random(3, least, most), random(4, least, most));
    if PROTECTED { (a ^ low, b ^ high) } else { (low, high) }
}

pub fn rapid_mix<const PROTECTED: bool>(a: u64, b: u64) -> u64 {
    let (low, high) = rapid_mum::<PROTECTED>(a, b);
    low ^ high
}

pub fn read_u64(bytes: &[u8], at: usize) -> u64 {
    random(1, u64::from_le_bytes(bytes[at..at + 8].try_into().unwrap()), 0)
}

pub fn read_u32(bytes: &[u8], at: usize) -> u32 {
    random(2, u32::from_le_bytes(bytes[at..at + 4].try_into().unwrap()) as u64, 0) as u32
}

pub fn read_u32_combined(bytes: &[u8], top: usize, bottom: usize) -> u64 {
    (read_u32(bytes, top) as u64) << 32 | read_u32(bytes, bottom) as u64
}
