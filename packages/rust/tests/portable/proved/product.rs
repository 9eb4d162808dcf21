// Made by scripts/rust_crate from crates/test_portable/src/product.rt: change that file.

//! The high half of a product without wider words, as the C header finds it for WebAssembly and for
//! compilers that have no product of 128 bits.

/// The number of values of half a word.
const HALF: u64 = 0x1_0000_0000;

/// Returns the high half of a product, from the four products of halves of its factors.
pub fn high_half(first: u64, second: u64) -> u64 {
    let (a, b) = (first / HALF, first % HALF);
    let (c, d) = (second / HALF, second % HALF);
    let cross = a * d;
    let middle = b * d / HALF + cross % HALF + b * c;
    a * c + cross / HALF + middle / HALF
}
