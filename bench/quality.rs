//! The in-memory hashers and the generator of the Rust crate, as hashes for bench/quality.c.

use rapidhash::rng::rapidrng_fast;
use rapidhash::{fast, quality};
use std::hash::Hasher;
use std::slice::from_raw_parts;

/// # Safety
/// `bytes` has `len` bytes.
#[no_mangle]
pub unsafe extern "C" fn in_memory_fast(bytes: *const u8, len: usize, seed: u64) -> u64 {
    let mut hasher = fast::RapidHasher::new(seed);
    hasher.write(from_raw_parts(bytes, len));
    hasher.finish()
}

/// # Safety
/// `bytes` has `len` bytes.
#[no_mangle]
pub unsafe extern "C" fn in_memory_quality(bytes: *const u8, len: usize, seed: u64) -> u64 {
    let mut hasher = quality::RapidHasher::new(seed);
    hasher.write(from_raw_parts(bytes, len));
    hasher.finish()
}

/// Returns the next word of a generator. An 8-byte message XOR the seed is its state. With any other message, it starts
/// at 0 and first takes `seed` steps.
///
/// # Safety
/// `bytes` has `len` bytes.
#[no_mangle]
pub unsafe extern "C" fn generator(bytes: *const u8, len: usize, seed: u64) -> u64 {
    let mut step = 0;
    rapidrng_fast(&mut step);
    let mut state = match from_raw_parts(bytes, len).try_into() {
        Ok(message) => u64::from_le_bytes(message) ^ seed,
        Err(_) => step.wrapping_mul(seed),
    };
    rapidrng_fast(&mut state)
}
