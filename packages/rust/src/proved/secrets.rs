// Made by scripts/rust_crate from crates/rapidhash_portable/src/secrets.rt: change that file.

//! Secrets made from a seed: the arithmetic of every `RapidSecrets`, and the type of V2 and V3.

pub mod v1;

use crate::util::rapid_mix;

/// A seed and the seven secrets of V2 and V3. Derive it once and keep it: deriving costs eight
/// multiplies.
#[repr(C)]
#[derive(Clone, Copy, PartialEq, Eq, Hash)]
pub struct RapidSecrets {
    /// The start value of every lane.
    pub seed: u64,
    /// The words that a message's words are mixed with: each lane has its own.
    pub secrets: [u64; 7],
}

/// The secrets of `rapidhash_v2_2` and `rapidhash_v3`: `RapidSecrets::seed_cpp(0)`, as numbers.
pub const DEFAULT_RAPID_SECRETS: RapidSecrets = RapidSecrets { seed: 0x4227_6556_7d8f_bfd6, secrets: DEFAULT_SECRETS };

impl RapidSecrets {
    /// Returns the default seed and secrets, [`DEFAULT_RAPID_SECRETS`], by reference.
    ///
    /// ```
    /// use rapidhash::v3::{RapidSecrets, rapidhash_v3_seeded};
    ///
    /// let hash = rapidhash_v3_seeded(b"hello", RapidSecrets::default_ref());
    /// assert_eq!(hash, 3327445792987248966);
    /// ```
    ///
    /// # Proved
    ///
    /// - `result.now.seed ≡ default_seed`
    /// - `result.now.secrets ≡ default_secrets`
    #[inline(always)]
    #[must_use]
    pub const fn default_ref() -> &'static Self {
        &DEFAULT_RAPID_SECRETS
    }

    /// Returns a seed and secrets made from a number. Each has a set bit in its upper, its middle
    /// and its lower part, so none is 0.
    ///
    /// ```
    /// use rapidhash::v3::{RapidSecrets, rapidhash_v3_seeded};
    ///
    /// let secrets = RapidSecrets::seed(0x1234_5678);
    /// let hash = rapidhash_v3_seeded(b"hello", &secrets);
    /// ```
    ///
    /// # Proved
    ///
    /// - `result.seed ≡ seeded seed`
    /// - `result.secrets ≡ seeded_secrets 7 seed`
    /// - `All IsGood (result.seed ∷ result.secrets)`
    #[must_use]
    pub const fn seed(seed: u64) -> Self {
        let seed = seed_of(seed);
        RapidSecrets { seed, secrets: chain::<7>(seed) }
    }

    /// Returns the same secrets with a new seed, which is made from the old one with the last
    /// default secret.
    ///
    /// ```
    /// use rapidhash::v3::RapidSecrets;
    ///
    /// let secrets = RapidSecrets::seed(7);
    /// assert_ne!(secrets.reseed().seed, secrets.seed);
    /// assert_eq!(secrets.reseed().secrets, secrets.secrets);
    /// ```
    ///
    /// # Proved
    ///
    /// - `result.seed ≡ reseeded self.now.seed 6`
    /// - `result.secrets ≡ self.now.secrets`
    /// - `IsGood result.seed`
    #[must_use]
    pub const fn reseed(&self) -> Self {
        RapidSecrets { seed: reseed_of(self.seed, 6), secrets: self.secrets }
    }

    /// Returns the seed of [`RapidSecrets::seed_cpp`], without the secrets.
    #[inline(always)]
    pub(crate) const fn seed_of_word(word: u64) -> u64 {
        cpp_seed_of(word, 2)
    }

    /// Returns the default secrets with a seed derived from a number. According to the Rust crate
    /// rapidhash, the C++ library derives it in the same way.
    /// Anyone who knows the default secrets can find messages with the same hash for every seed: if
    /// that matters, see [`RapidSecrets::seed`].
    ///
    /// ```
    /// use rapidhash::v3::{DEFAULT_RAPID_SECRETS, RapidSecrets};
    ///
    /// assert_eq!(RapidSecrets::seed_cpp(7).secrets, DEFAULT_RAPID_SECRETS.secrets);
    /// ```
    ///
    /// # Proved
    ///
    /// - `result.seed ≡ cpp_seeded seed 2`
    /// - `result.secrets ≡ default_secrets`
    #[must_use]
    pub const fn seed_cpp(seed: u64) -> Self {
        RapidSecrets { seed: Self::seed_of_word(seed), secrets: DEFAULT_SECRETS }
    }
}

/// The default secrets. V1 has the first three.
pub(crate) const DEFAULT_SECRETS: [u64; 7] = [
    0x2d35_8dcc_aa6c_78a5,
    0x8bb8_4b93_962e_acc9,
    0x4b33_a62e_d433_d4a3,
    0x4d5a_2da5_1de1_aa47,
    0xa076_1d64_78bd_642f,
    0xe703_7ed1_a0b4_28db,
    0x90ed_1765_281c_388c,
];

/// The number that the global seed is mixed with.
const GLOBAL_MASK: u64 = 0xbdd8_9aa9_8270_4029;

/// Returns the word, with `bit` set if it has no bit of `mask`.
const fn with_bit(word: u64, mask: u64, bit: u64) -> u64 {
    if word & mask == 0 { word | bit } else { word }
}

/// Returns the word, with a bit set in each of its upper, middle and lower part that has none.
pub(crate) const fn repair(word: u64) -> u64 {
    let upper = with_bit(word, 0xffff << 48, 1 << 63);
    let middle = with_bit(upper, 0xffff << 24, 1 << 31);
    with_bit(middle, 0xffff, 1)
}

/// Returns the word mixed with the default secret at `place`, and repaired.
const fn premix(word: u64, place: usize) -> u64 {
    let mixed = rapid_mix::<false>(word ^ DEFAULT_SECRETS[2], DEFAULT_SECRETS[place]);
    repair(word ^ mixed)
}

/// Returns the seed that `RapidSecrets::seed` derives.
pub(crate) const fn seed_of(number: u64) -> u64 {
    premix(number, 0)
}

/// Returns `COUNT` secrets: the first is derived from the seed, each other from the previous one.
pub(crate) const fn chain<const COUNT: usize>(seed: u64) -> [u64; COUNT] {
    let mut secrets = [0; COUNT];
    let mut last = seed;
    let mut place = 0;
    while place < COUNT {
        last = premix(last, place);
        secrets[place] = last;
        place += 1;
    }
    secrets
}

/// Returns the seed that `RapidSecrets::seed_cpp` derives: V1 mixes with default secret 0, the
/// others with 2.
pub(crate) const fn cpp_seed_of(number: u64, place: usize) -> u64 {
    number ^ rapid_mix::<false>(number ^ DEFAULT_SECRETS[place], DEFAULT_SECRETS[1])
}

/// Returns the seed that `RapidSecrets::reseed` derives, with the last default secret of the
/// version.
pub(crate) const fn reseed_of(seed: u64, place: usize) -> u64 {
    premix(seed, place)
}

/// Returns the global seed of a random word.
pub(crate) fn global_seed_of(random: u64) -> u64 {
    rapid_mix::<false>(random ^ DEFAULT_SECRETS[0], GLOBAL_MASK)
}

/// Returns the seven secrets of a random word, each derived from the previous one.
pub(crate) fn made_secrets(random: u64) -> [u64; 7] {
    let mut secrets = [0; 7];
    let mut state = rapid_mix::<false>(random ^ DEFAULT_SECRETS[2], DEFAULT_SECRETS[1]);
    for place in 0..7 {
        let mask = random ^ DEFAULT_SECRETS[place];
        state = repair(rapid_mix::<false>(state ^ DEFAULT_SECRETS[0], mask));
        secrets[place] = state;
    }
    secrets
}
