// Made by scripts/rust_crate from crates/test_hasher/src/blocks.rt: change that file.

//! Integers of one byte, which share blocks of 128 bits.

use rapidhash::inner::SeedableState;
use std::hash::{BuildHasher, Hasher};

/// A number of bytes of one value and one of 255, each an integer.
fn by_bytes<const COMPACT: bool>(length: u32, value: u8) -> u64 {
    let state = SeedableState::<false, true, COMPACT, false>::fixed();
    let mut hasher = state.build_hasher();
    for _ in 0..length {
        hasher.write_u8(value);
    }
    hasher.write_u8(0xFF);
    hasher.finish()
}

/// The same, written as the 128-bit numbers of the blocks: 16 bytes of one value are its product
/// with (2^128 - 1) / 255.
fn by_blocks(length: u32, value: u8) -> u64 {
    let state = SeedableState::<false, true, false, false>::fixed();
    let mut hasher = state.build_hasher();
    for _ in 0..length / 16 {
        hasher.write_u128(u128::from(value).wrapping_mul(u128::MAX / 255));
    }
    let last = 1u128.wrapping_shl(length % 16 * 8);
    let below = last.wrapping_sub(1) / 255;
    let bytes = u128::from(value).wrapping_mul(below);
    hasher.write_u128(bytes.wrapping_add(last.wrapping_mul(255)));
    hasher.finish()
}

/// The first value for which bytes have another hash when they are written again, in compact code,
/// or as blocks.
fn first_unstable(length: u32) -> Option<u8> {
    for value in 0..=u8::MAX {
        let answer = by_bytes::<false>(length, value);
        let again = by_bytes::<false>(length, value);
        let compact = by_bytes::<true>(length, value);
        if answer != again || answer != compact || answer != by_blocks(length, value) {
            return Some(value);
        }
    }
    None
}

#[test]
fn sponge_buffer_stability() {
    for length in 1..65u32 {
        assert!(first_unstable(length).is_none(), "{length}");
    }
}
