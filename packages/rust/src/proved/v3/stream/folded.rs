// Made by scripts/rust_crate from crates/rapidhash_portable/src/v3/stream/folded.rt: change that file.

//! The lanes of a stream hasher.
//!
//! The speed of large pieces depends on the loop of `fold_chunks`: after a change look at the
//! machine code with `objdump`. If the lanes are copied from `self` into local variables, the
//! compiler packs them into vectors and unpacks them, which needs half as much time again.

use crate::lanes::{fold_row, fold_two_rows_by_lane, join};

/// Seven lanes, of which a stream of fewer uses the first.
#[repr(C)]
#[derive(Clone)]
pub(crate) struct Folded {
    lanes: [u64; 7],
}

impl Folded {
    /// Returns lanes that all hold the seed.
    #[inline(always)]
    pub(crate) const fn new(seed: u64) -> Self {
        Folded { lanes: [seed; 7] }
    }

    /// Returns lanes that hold these words.
    pub(super) const fn with_lanes(lanes: [u64; 7]) -> Self {
        Folded { lanes }
    }

    /// Returns the lanes.
    pub(super) fn lanes(&self) -> &[u64] {
        &self.lanes
    }

    /// Folds the chunk at the head of `bytes`, one pair into each of the first `LANES` lanes.
    #[inline(always)]
    pub(crate) fn step<const LANES: usize, const PROTECTED: bool>(&mut self, bytes: &[u8], secrets: &[u64; 7]) {
        fold_row::<7, LANES, PROTECTED>(&mut self.lanes, bytes, secrets);
    }

    /// Folds the two chunks at the head of `bytes`.
    #[inline(always)]
    fn step_twice<const LANES: usize, const PROTECTED: bool>(&mut self, bytes: &[u8], secrets: &[u64; 7]) {
        fold_two_rows_by_lane::<7, LANES, PROTECTED>(&mut self.lanes, bytes, secrets);
    }

    /// Folds every whole chunk of `bytes` that a further byte follows, and returns the bytes after
    /// them. An iteration folds two chunks, as in the hash of a slice.
    #[inline(always)]
    pub(crate) fn fold_chunks<'x, const LANES: usize, const PROTECTED: bool>(
        &mut self,
        bytes: &'x [u8],
        secrets: &[u64; 7],
    ) -> &'x [u8] {
        let mut rest = bytes;
        while rest.len() > 32 * LANES {
            self.step_twice::<LANES, PROTECTED>(rest, secrets);
            rest = &rest[32 * LANES..];
        }
        if rest.len() > 16 * LANES {
            self.step::<LANES, PROTECTED>(rest, secrets);
            rest = &rest[16 * LANES..];
        }
        rest
    }

    /// Starts again.
    #[inline(always)]
    pub(crate) fn clear(&mut self, seed: u64) {
        *self = Folded::new(seed);
    }

    /// Returns the XOR of the first `LANES` lanes.
    #[inline(always)]
    pub(crate) fn joined<const LANES: usize>(&self) -> u64 {
        join::<7, LANES>(&self.lanes)
    }
}
