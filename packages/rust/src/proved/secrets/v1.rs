// Made by scripts/rust_crate from crates/rapidhash_portable/src/secrets/v1.rt: change that file.

//! The seed and the secrets of V1.

use super::{DEFAULT_SECRETS, chain, cpp_seed_of, reseed_of, seed_of};

/// A seed and the three secrets of V1. Derive it once and keep it: deriving costs four multiplies
/// or more. It is laid out as in C.
#[repr(C)]
#[derive(Clone, Copy, PartialEq, Eq, Hash)]
pub struct RapidSecrets {
    /// The start value of every lane.
    pub seed: u64,
    /// The words that a message's words are mixed with.
    pub secrets: [u64; 3],
}

/// The secrets of [`rapidhash_v1`](crate::v1::rapidhash_v1): `RapidSecrets::seed_cpp(0xbdd89aa982704029)`, as numbers.
pub const DEFAULT_RAPID_SECRETS: RapidSecrets = RapidSecrets {
    seed: 0x7633_05bb_e7be_a536,
    secrets: [0x2d35_8dcc_aa6c_78a5, 0x8bb8_4b93_962e_acc9, 0x4b33_a62e_d433_d4a3],
};

impl RapidSecrets {
    /// Returns the default seed and secrets, [`DEFAULT_RAPID_SECRETS`], by reference.
    ///
    /// # Proved
    ///
    /// - `result.now.seed ≡ default_seed_v1`
    /// - `result.now.secrets ≡ default_secrets_v1`
    #[inline(always)]
    #[must_use]
    pub const fn default_ref() -> &'static Self {
        &DEFAULT_RAPID_SECRETS
    }

    /// Returns a seed and secrets made from a number. Each has a set bit in its upper, its middle
    /// and its lower part, so none is 0.
    ///
    /// ```
    /// use rapidhash::v1::{RapidSecrets, rapidhash_v1_seeded};
    ///
    /// let secrets = RapidSecrets::seed(0x1234_5678);
    /// let hash = rapidhash_v1_seeded(b"hello", &secrets);
    /// ```
    ///
    /// # Proved
    ///
    /// - `result.seed ≡ seeded seed`
    /// - `result.secrets ≡ seeded_secrets 3 seed`
    /// - `All IsGood (result.seed ∷ result.secrets)`
    #[must_use]
    pub const fn seed(seed: u64) -> Self {
        let seed = seed_of(seed);
        RapidSecrets { seed, secrets: chain::<3>(seed) }
    }

    /// Returns the same secrets with a new seed, made from the old one with V1's last default
    /// secret.
    ///
    /// ```
    /// use rapidhash::v1::RapidSecrets;
    ///
    /// let secrets = RapidSecrets::seed(7);
    /// assert_ne!(secrets.reseed().seed, secrets.seed);
    /// assert_eq!(secrets.reseed().secrets, secrets.secrets);
    /// ```
    ///
    /// # Proved
    ///
    /// - `result.seed ≡ reseeded self.now.seed 2`
    /// - `result.secrets ≡ self.now.secrets`
    /// - `IsGood result.seed`
    #[must_use]
    pub const fn reseed(&self) -> Self {
        RapidSecrets { seed: reseed_of(self.seed, 2), secrets: self.secrets }
    }

    /// Returns the seed of [`RapidSecrets::seed_cpp`], without the secrets.
    #[inline(always)]
    pub(crate) const fn seed_of_word(word: u64) -> u64 {
        cpp_seed_of(word, 0)
    }

    /// Returns the default secrets with a seed derived from a number. According to the Rust crate
    /// rapidhash, the C++ library derives it in the same way.
    /// Anyone who knows the default secrets can find messages with the same hash for every seed: if
    /// that matters, see [`RapidSecrets::seed`].
    ///
    /// ```
    /// use rapidhash::v1::{DEFAULT_RAPID_SECRETS, RapidSecrets};
    ///
    /// assert_eq!(RapidSecrets::seed_cpp(7).secrets, DEFAULT_RAPID_SECRETS.secrets);
    /// ```
    ///
    /// # Proved
    ///
    /// - `result.seed ≡ cpp_seeded seed 0`
    /// - `result.secrets ≡ default_secrets_v1`
    #[must_use]
    pub const fn seed_cpp(seed: u64) -> Self {
        RapidSecrets {
            seed: Self::seed_of_word(seed),
            secrets: [DEFAULT_SECRETS[0], DEFAULT_SECRETS[1], DEFAULT_SECRETS[2]],
        }
    }
}
