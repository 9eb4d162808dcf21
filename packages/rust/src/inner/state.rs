//! The states that build hashers for a map. Each keeps only a seed and secrets, of which the proved `seeded` makes the
//! hashers. The source of the seeds and secrets of a process is outside the proof.

use crate::random::{Kept, global, next, of_process};
use crate::secrets::RapidSecrets;
use std::fmt::{Debug, Formatter, Result};
use std::hash::BuildHasher;

use super::RapidHasher;

/// Defines a state whose `new` comes from a function.
macro_rules! random_state {
    ($(#[$about:meta])* $name:ident, $(#[$new:meta])* $kept:path) => {
        $(#[$about])*
        #[derive(Clone, Copy, PartialEq, Eq)]
        pub struct $name<
            const AVALANCHE: bool,
            const SPONGE: bool,
            const COMPACT: bool,
            const PROTECTED: bool,
        > {
            kept: Kept<'static>,
        }

        impl<const AVALANCHE: bool, const SPONGE: bool, const COMPACT: bool, const PROTECTED: bool>
            $name<AVALANCHE, SPONGE, COMPACT, PROTECTED>
        {
            $(#[$new])*
            #[must_use]
            #[inline]
            pub fn new() -> Self {
                Self { kept: $kept() }
            }
        }

        impl<const AVALANCHE: bool, const SPONGE: bool, const COMPACT: bool, const PROTECTED: bool> Default
            for $name<AVALANCHE, SPONGE, COMPACT, PROTECTED>
        {
            /// Returns the state of `new`.
            #[inline]
            fn default() -> Self {
                Self::new()
            }
        }

        impl<const AVALANCHE: bool, const SPONGE: bool, const COMPACT: bool, const PROTECTED: bool>
            BuildHasher for $name<AVALANCHE, SPONGE, COMPACT, PROTECTED>
        {
            type Hasher = RapidHasher<'static, AVALANCHE, SPONGE, COMPACT, PROTECTED>;

            #[inline(always)]
            fn build_hasher(&self) -> Self::Hasher {
                self.kept.seeded().hasher()
            }
        }

        impl<const AVALANCHE: bool, const SPONGE: bool, const COMPACT: bool, const PROTECTED: bool> Debug
            for $name<AVALANCHE, SPONGE, COMPACT, PROTECTED>
        {
            fn fmt(&self, f: &mut Formatter<'_>) -> Result {
                f.debug_struct(stringify!($name)).finish_non_exhaustive()
            }
        }
    };
}

random_state! {
    /// Builds hashers with the single seed of this process: all its maps hash in the same way. Where its seed and
    /// secrets come from, [Security](crate#security) says.
    ///
    /// ```
    /// use rapidhash::inner::GlobalState;
    ///
    /// let state = GlobalState::<false, true, false, false>::new();
    /// assert_eq!(state, GlobalState::new());
    /// ```
    GlobalState,
    /// Returns a state with the seed and the secrets of this process.
    global
}

random_state! {
    /// Builds hashers with a seed for each state and the secrets of this process; two seeds may be equal. Where both
    /// come from, [Security](crate#security) says.
    ///
    /// ```
    /// use rapidhash::inner::RandomState;
    /// use std::collections::HashMap;
    ///
    /// let state = RandomState::<false, true, false, false>::new();
    /// let mut map = HashMap::with_hasher(state);
    /// map.insert("answer", 42);
    /// ```
    RandomState,
    /// Returns a state with the next seed.
    next
}

/// Builds hashers with the caller's seed.
///
/// ```
/// use rapidhash::inner::SeedableState;
/// use rapidhash::v3::RapidSecrets;
/// use std::collections::HashMap;
///
/// let secrets = RapidSecrets::seed(0x1234_5678);
/// let state = SeedableState::<false, true, false, false>::custom(secrets.seed, &secrets.secrets);
/// let mut map = HashMap::with_hasher(state);
/// map.insert("answer", 42);
/// ```
#[derive(Clone, Copy, PartialEq, Eq)]
pub struct SeedableState<
    's,
    const AVALANCHE: bool,
    const SPONGE: bool,
    const COMPACT: bool = false,
    const PROTECTED: bool = false,
> {
    kept: Kept<'s>,
}

impl<'s, const AVALANCHE: bool, const SPONGE: bool, const COMPACT: bool, const PROTECTED: bool>
    SeedableState<'s, AVALANCHE, SPONGE, COMPACT, PROTECTED>
{
    /// Returns a state with the secrets of this process and a seed made from `seed` as in
    /// [`RapidSecrets::seed_cpp`](crate::v3::RapidSecrets::seed_cpp).
    #[must_use]
    pub fn new(seed: u64) -> Self {
        Self { kept: of_process(RapidSecrets::seed_of_word(seed)) }
    }

    /// Returns a state with the next seed and the secrets of this process, as [`RandomState`] has them.
    #[must_use]
    #[inline]
    pub fn random() -> Self {
        Self { kept: next() }
    }

    /// Returns the state with the default seed and secrets, the same in every run of every program.
    /// Anyone who knows them can find keys that all have the same hash.
    #[must_use]
    #[inline]
    pub const fn fixed() -> Self {
        let default = RapidSecrets::default_ref();
        Self::custom(default.seed, &default.secrets)
    }

    /// Returns a state with this seed and these secrets, used as they are. Make them with
    /// [`RapidSecrets::seed`](crate::v3::RapidSecrets::seed): with small numbers as secrets, many keys have hashes
    /// that agree in the bits that a map looks at first, and a lookup takes a hundred times as long.
    #[must_use]
    #[inline]
    pub const fn custom(seed: u64, secrets: &'s [u64; 7]) -> Self {
        Self { kept: Kept::new(seed, secrets) }
    }

    /// Returns the same as [`SeedableState::custom`].
    #[deprecated(note = "`custom` is the same")]
    #[must_use]
    #[inline]
    pub const fn with_seed(seed: u64, secrets: &'s [u64; 7]) -> Self {
        Self::custom(seed, secrets)
    }
}

impl<'s, const AVALANCHE: bool, const SPONGE: bool, const COMPACT: bool, const PROTECTED: bool> Default
    for SeedableState<'s, AVALANCHE, SPONGE, COMPACT, PROTECTED>
{
    /// Returns [`SeedableState::random`].
    #[inline]
    fn default() -> Self {
        Self::random()
    }
}

impl<'s, const AVALANCHE: bool, const SPONGE: bool, const COMPACT: bool, const PROTECTED: bool> BuildHasher
    for SeedableState<'s, AVALANCHE, SPONGE, COMPACT, PROTECTED>
{
    type Hasher = RapidHasher<'s, AVALANCHE, SPONGE, COMPACT, PROTECTED>;

    #[inline(always)]
    fn build_hasher(&self) -> Self::Hasher {
        self.kept.seeded().hasher()
    }
}

impl<'s, const AVALANCHE: bool, const SPONGE: bool, const COMPACT: bool, const PROTECTED: bool> Debug
    for SeedableState<'s, AVALANCHE, SPONGE, COMPACT, PROTECTED>
{
    fn fmt(&self, f: &mut Formatter<'_>) -> Result {
        f.debug_struct("SeedableState").finish_non_exhaustive()
    }
}
