// Made by scripts/rust_crate from crates/rapidhash_portable/src/tail.rt: change that file.

//! The end of every hash, after its rows: the pairs of the tail are folded into the seed, and the
//! close computes the hash from the seed and the last two words.

use crate::lanes::fold_pair;
use crate::util::{rapid_mix, rapid_mum};

const_fn! {
/// Returns the seed after the pairs of a tail: pair j is mixed with secret j of the table, and the
/// last 1 to 16 bytes form no pair.
#[inline(always)]
pub(crate) const fn fold_tail<const COUNT: usize, const PROTECTED: bool>(
    tail: &[u8],
    table: &[u64; COUNT],
    start: u64,
) -> u64 {
    let mut seed = start;
    // Where pair j ends. It is counted beside j: a sum in the test compiles to a longer one.
    let mut end = 16;
    let mut j = 0;
    while j < COUNT {
        if tail.len() > end {
            seed = fold_pair::<PROTECTED>(tail, 16 * j, table[j], seed);
        }
        end += 16;
        j += 1;
    }
    seed
}
}

const_fn! {
/// Returns the value of the last two words and the seed.
#[inline(always)]
pub(crate) const fn close<const AVALANCHE: bool, const PROTECTED: bool>(
    words: (u64, u64),
    seed: u64,
    secret: u64,
    masks: (u64, u64),
) -> u64 {
    let (a, b) = rapid_mum::<PROTECTED>(words.0 ^ secret, words.1 ^ seed);
    if AVALANCHE { rapid_mix::<PROTECTED>(a ^ masks.0, b ^ masks.1) } else { a ^ b }
}
}
