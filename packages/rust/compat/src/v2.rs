//! rapidhash V2. Its secrets have a type of their own, as in the crate.

#[cfg(feature = "std")]
pub use crate::files::{rapidhash_v2_2_file, rapidhash_v2_2_file_seeded, rapidhash_v2_file_inline};
use core::fmt::{Debug, Formatter};
use proved::v2::RapidSecrets as Proved;
pub use proved::v2::rapidhash_v2_2;

/// A seed and the seven secrets of V2.
#[derive(Clone, Copy, PartialEq, Eq, Hash)]
pub struct RapidSecrets {
    /// The seed.
    pub seed: u64,
    /// The secrets.
    pub secrets: [u64; 7],
}

/// The secrets of [`rapidhash_v2_2`].
pub const DEFAULT_RAPID_SECRETS: RapidSecrets = RapidSecrets::seed_cpp(0);

/// Shows neither the seed nor the secrets.
impl Debug for RapidSecrets {
    fn fmt(&self, f: &mut Formatter<'_>) -> core::fmt::Result {
        f.debug_struct("RapidSecrets").finish_non_exhaustive()
    }
}

impl RapidSecrets {
    /// Returns the secrets with the type of the proved crate.
    pub(crate) const fn proved(&self) -> Proved {
        Proved { seed: self.seed, secrets: self.secrets }
    }

    const fn of(proved: Proved) -> Self {
        Self { seed: proved.seed, secrets: proved.secrets }
    }

    /// Returns a seed and secrets made from a number.
    #[must_use]
    pub const fn seed(seed: u64) -> Self {
        Self::of(Proved::seed(seed))
    }

    /// Returns the same secrets with a new seed.
    #[must_use]
    pub const fn reseed(&self) -> Self {
        Self::of(self.proved().reseed())
    }

    /// Returns the default secrets with a seed made from a number.
    #[must_use]
    pub const fn seed_cpp(seed: u64) -> Self {
        Self::of(Proved::seed_cpp(seed))
    }

    /// Returns the next seed and the secrets of this process.
    #[must_use]
    pub fn random() -> Self {
        Self::of(Proved::random())
    }
}

/// Defines a function that is `const` if the compiler has it, from Rust 1.83 on.
macro_rules! const_fn {
    ($(#[$attribute:meta])* pub const fn $($rest:tt)*) => {
        #[cfg(not(rapidhash_old_const))]
        $(#[$attribute])*
        pub const fn $($rest)*

        #[cfg(rapidhash_old_const)]
        $(#[$attribute])*
        pub fn $($rest)*
    };
}

const_fn! {
/// Returns the V2.2 hash of `data` with the caller's seed and secrets.
#[inline]
#[must_use]
pub const fn rapidhash_v2_2_seeded(data: &[u8], secrets: &RapidSecrets) -> u64 {
    proved::v2::rapidhash_v2_2_seeded(data, &secrets.proved())
}
}

const_fn! {
/// Returns the hash of `data` by V2 of a minor version, with every option. A call does not compile if `MINOR` is above
/// 2.
#[inline(always)]
#[must_use]
pub const fn rapidhash_v2_inline<
    const MINOR: u8,
    const AVALANCHE: bool,
    const COMPACT: bool,
    const PROTECTED: bool,
>(
    data: &[u8],
    secrets: &RapidSecrets,
) -> u64 {
    proved::v2::rapidhash_v2_inline::<MINOR, AVALANCHE, COMPACT, PROTECTED>(data, &secrets.proved())
}
}
