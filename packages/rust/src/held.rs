//! How streams, states and hashers hold their secrets.

#[cfg(any(feature = "std", not(target_has_atomic = "32")))]
use crate::proved::inner::state::seeded::Seeded;
use crate::secrets::RapidSecrets;
use std::marker::PhantomData;
use std::ops::Deref;

/// The secrets of a stream, which owns them. The lifetime is that of the crate `rapidhash`, whose streams borrow them.
#[derive(Clone)]
pub(crate) struct Owned<'a> {
    secrets: RapidSecrets,
    lifetime: PhantomData<&'a RapidSecrets>,
}

impl Owned<'_> {
    #[inline(always)]
    pub(crate) const fn new(secrets: &RapidSecrets) -> Self {
        Owned { secrets: *secrets, lifetime: PhantomData }
    }
}

impl Deref for Owned<'_> {
    type Target = RapidSecrets;

    #[inline(always)]
    fn deref(&self) -> &RapidSecrets {
        &self.secrets
    }
}

/// The secrets of a hasher: a reference, or without `std` the words themselves, because `core` has nothing that lends
/// words to a whole process after a program has chosen them.
#[derive(Clone, Copy)]
pub(crate) struct Secrets<'s> {
    #[cfg(feature = "std")]
    words: &'s [u64; 7],
    #[cfg(not(feature = "std"))]
    words: [u64; 7],
    lifetime: PhantomData<&'s [u64; 7]>,
}

impl<'s> Secrets<'s> {
    #[inline(always)]
    pub(crate) const fn new(words: &'s [u64; 7]) -> Self {
        Secrets {
            #[cfg(feature = "std")]
            words,
            #[cfg(not(feature = "std"))]
            words: *words,
            lifetime: PhantomData,
        }
    }
}

#[cfg(not(feature = "std"))]
impl From<[u64; 7]> for Secrets<'static> {
    #[inline(always)]
    fn from(words: [u64; 7]) -> Self {
        Secrets { words, lifetime: PhantomData }
    }
}

impl Deref for Secrets<'_> {
    type Target = [u64; 7];

    #[inline(always)]
    fn deref(&self) -> &[u64; 7] {
        #[cfg(feature = "std")]
        return self.words;
        #[cfg(not(feature = "std"))]
        &self.words
    }
}

/// The content of a state. Without `std`, `random` has a smaller one.
#[cfg(any(feature = "std", not(target_has_atomic = "32")))]
pub(crate) type Kept<'s> = Seeded<'s>;

#[cfg(any(feature = "std", not(target_has_atomic = "32")))]
impl<'s> Seeded<'s> {
    #[inline(always)]
    pub(crate) const fn new(seed: u64, words: &'s [u64; 7]) -> Self {
        Seeded { seed, secrets: Secrets::new(words) }
    }

    /// Returns the seed and the secrets.
    #[inline(always)]
    pub(crate) const fn seeded(&self) -> Self {
        *self
    }
}
