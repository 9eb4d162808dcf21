// Made by scripts/rust_crate from crates/rapidhash_portable/src/v3/stream/state.rt: change that file.

//! The data of a stream hasher, with the number of its lanes.

use super::parts::Parts;
use super::saved::SAVED_SIZE;

/// The data of a stream hasher, of which at most one chunk is buffered.
#[derive(Clone)]
pub(crate) struct State<'a, const LANES: usize> {
    pub(super) parts: Parts<'a>,
}

impl<'a, const LANES: usize> State<'a, LANES> {
    #[inline(always)]
    pub(crate) fn write<const PROTECTED: bool>(&mut self, piece: &[u8]) {
        self.parts.write::<LANES, PROTECTED>(piece);
    }

    #[inline(always)]
    pub(crate) fn finish<const AVALANCHE: bool, const PROTECTED: bool>(&self) -> u64 {
        self.parts.finish::<LANES, AVALANCHE, PROTECTED>()
    }

    #[inline(always)]
    pub(crate) fn reset<const PROTECTED: bool>(&mut self) {
        self.parts.reset::<LANES, PROTECTED>();
    }

    #[inline]
    pub(crate) fn save(&self, options: u8) -> [u8; SAVED_SIZE] {
        self.parts.save::<LANES>(options)
    }
}
