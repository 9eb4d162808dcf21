//! The random words of states whose caller passes none. The proofs do not cover this source, only the values made from
//! the words.
//!
//! With std, a process draws two words from std's `RandomState` when it first needs them. The source of a thread's
//! seeds starts from a word of a generator, so that its first state costs no call of the system. Nothing here allocates
//! memory, and the words are drawn before the lock is taken that stores them. So a state may be made inside an
//! allocator.
//!
//! Without std, a program can set the two words. Otherwise both come from an address, which most systems choose at
//! random. Neither waits for a lock, so that an interrupt may make a state too.

use crate::rng::RapidRng;
use crate::secrets::RapidSecrets;

use std::fmt::{Display, Formatter};
pub(crate) use system::{Kept, global, next, of_process};

#[cfg_attr(feature = "std", path = "random/with_std.rs")]
#[cfg_attr(all(not(feature = "std"), target_has_atomic = "32"), path = "random/without_std.rs")]
#[cfg_attr(all(not(feature = "std"), not(target_has_atomic = "32")), path = "random/without_atomics.rs")]
mod system;

/// Adds two random words to those of the system, and makes the secrets and seeds of this process from all of them. It
/// is for a system that gives this crate none: without the feature `std`, or on wasm32-unknown-unknown. A program calls
/// it once, first of all, with words that nobody else knows.
///
/// Elsewhere it does no harm, even with words that others know: each only changes a random one, by XOR.
///
/// ```
/// # fn two_words_of_the_hardware() -> [u64; 2] { [0x9e37_79b9_7f4a_7c15, 0xbf58_476d_1ce4_e5b9] }
/// let words = two_words_of_the_hardware();
/// rapidhash::set_random_words(words).expect("no state was made before");
/// ```
///
/// # Errors
///
/// [`WordsInUse`] if the words were set before, or if a state was made: its secrets would change.
#[cfg(any(feature = "std", target_has_atomic = "32"))]
pub fn set_random_words(words: [u64; 2]) -> Result<(), WordsInUse> {
    if system::set(words) { Ok(()) } else { Err(WordsInUse(())) }
}

/// The error of [`set_random_words`]: this process already has its secrets.
#[derive(Clone, Copy, Debug, PartialEq, Eq)]
pub struct WordsInUse(());

impl Display for WordsInUse {
    fn fmt(&self, f: &mut Formatter<'_>) -> std::fmt::Result {
        f.write_str("the random words of rapidhash are in use: a state was made or they were set")
    }
}

#[cfg(feature = "std")]
impl std::error::Error for WordsInUse {}

impl RapidSecrets {
    /// Returns the next seed of this process, with its secrets. Where both come from, [Security](crate#security) says.
    ///
    /// ```
    /// use rapidhash::v3::{rapidhash_v3_seeded, RapidSecrets};
    ///
    /// let secrets = RapidSecrets::random();
    /// let hash = rapidhash_v3_seeded(b"hello", &secrets);
    /// assert_eq!(hash, rapidhash_v3_seeded(b"hello", &secrets));
    /// ```
    #[must_use]
    pub fn random() -> Self {
        let state = next().seeded();
        RapidSecrets { seed: state.seed, secrets: *state.secrets }
    }
}

/// Creates a generator whose state is the next seed of this process.
impl Default for RapidRng {
    fn default() -> Self {
        RapidRng::new(next().seed)
    }
}
