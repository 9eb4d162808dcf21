// Made by scripts/rust_crate from crates/rapidhash/src/inner/state/seeded.rt: change that file.

//! The content of every state: a seed and secrets.

use crate::held::Secrets;
use crate::inner::hasher::RapidHasher;

/// A seed and the secrets that go with it.
#[derive(Clone, Copy)]
pub(crate) struct Seeded<'s> {
    pub(crate) seed: u64,
    pub(crate) secrets: Secrets<'s>,
}

impl<'s> Seeded<'s> {
    /// Returns a hasher with the seed and the secrets that has absorbed nothing.
    #[inline(always)]
    pub(crate) fn hasher<const AVALANCHE: bool, const SPONGE: bool, const COMPACT: bool, const PROTECTED: bool>(
        &self,
    ) -> RapidHasher<'s, AVALANCHE, SPONGE, COMPACT, PROTECTED> {
        RapidHasher::from_parts(self.seed, self.secrets)
    }
}

impl<'s> PartialEq for Seeded<'s> {
    #[inline]
    fn eq(&self, other: &Self) -> bool {
        self.seed == other.seed && *self.secrets == *other.secrets
    }
}

impl<'s> Eq for Seeded<'s> {}
