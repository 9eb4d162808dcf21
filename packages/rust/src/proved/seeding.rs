// Made by scripts/rust_crate from crates/rapidhash_portable/src/seeding.rt: change that file.

//! Secrets and seeds made from random words. There is no global state: the caller passes the words,
//! owns the values, and lends them to what hashes with them.

use crate::secrets::{DEFAULT_SECRETS, global_seed_of, made_secrets};
use crate::util::rapid_mix;

/// A seed and seven secrets, made from one random word: a program makes them once, and every hasher
/// borrows them.
///
/// ```
/// use rapidhash::inner::GlobalSecrets;
///
/// let random_word = 0x9e37_79b9_7f4a_7c15;
/// let secrets = GlobalSecrets::new(random_word);
/// let seed = secrets.get_global_seed();
/// ```
#[derive(Clone, Copy, PartialEq, Eq)]
pub struct GlobalSecrets {
    seed: u64,
    secrets: [u64; 7],
}

impl GlobalSecrets {
    /// Returns the seed and secrets of a random word. Two calls with the same word return the same
    /// value.
    ///
    /// # Proved
    ///
    /// - `seed_of result ≡ global_seed random`
    /// - `secrets_of_global result ≡ made_secrets random`
    /// - `All IsGood (secrets_of_global result)`
    #[must_use]
    pub fn new(random: u64) -> Self {
        GlobalSecrets { seed: global_seed_of(random), secrets: made_secrets(random) }
    }

    /// Returns the seven secrets.
    #[inline]
    #[must_use]
    pub const fn get(&self) -> &[u64; 7] {
        &self.secrets
    }

    /// Returns the seed that was made beside the secrets.
    ///
    /// # Proved
    ///
    /// - `result ≡ seed_of self.now`
    #[inline]
    #[must_use]
    pub const fn get_global_seed(&self) -> u64 {
        self.seed
    }
}

/// A source of seeds: a counter, mixed with a second random word. Each call returns the next seed.
/// Two seeds may be equal, and for some words they are.
///
/// ```
/// use rapidhash::inner::{GlobalSecrets, SeedSource};
///
/// let (random_word, second_random_word) = (0x9e37_79b9_7f4a_7c15, 0xbf58_476d_1ce4_e5b9);
/// let secrets = GlobalSecrets::new(random_word);
/// let mut source = SeedSource::new(&secrets, second_random_word);
/// let seed = source.next();
/// ```
#[derive(Clone)]
pub struct SeedSource {
    pub(crate) counter: u64,
    pub(crate) random: u64,
}

impl SeedSource {
    /// Returns the source of a seed and a second random word.
    ///
    /// # Proved
    ///
    /// - `counter_of result ≡ source_start (seed_of secrets.now) random`
    /// - `random_of result ≡ random`
    #[must_use]
    pub const fn new(secrets: &GlobalSecrets, random: u64) -> Self {
        let first = random.wrapping_add(1) ^ DEFAULT_SECRETS[3];
        let counter = rapid_mix::<false>(first, secrets.seed ^ DEFAULT_SECRETS[4]);
        SeedSource { counter, random }
    }

    /// Returns the next seed.
    ///
    /// # Proved
    ///
    /// - `Draws self.old self.new result`
    pub fn next(&mut self) -> u64 {
        let counter = self.counter.wrapping_add(DEFAULT_SECRETS[0]);
        self.counter = counter;
        let mask = self.random ^ DEFAULT_SECRETS[1];
        counter ^ rapid_mix::<false>(counter ^ DEFAULT_SECRETS[2], mask)
    }
}
