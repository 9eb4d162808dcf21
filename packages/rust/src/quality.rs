//! The hasher and the states with the avalanche: for filters, sketches and shards, which use the bits of a hash without
//! comparing keys. A map is faster with [`crate::fast`].
//!
//! They are the same as in `fast`, but each write of bytes and each hash is mixed once more.
//!
//! ```
//! use rapidhash::quality::SeedableState;
//! use std::hash::{BuildHasher, Hasher};
//!
//! let mut hasher = SeedableState::fixed().build_hasher();
//! hasher.write(b"user:4711");
//! let hash = hasher.finish();
//! ```

use crate::inner;

/// The hasher of maps, with the avalanche.
///
/// ```
/// use rapidhash::quality::RapidHasher;
/// use std::hash::Hasher;
///
/// let mut hasher = RapidHasher::default();
/// hasher.write(b"user:4711");
/// let hash = hasher.finish();
/// ```
pub type RapidHasher<'s> = inner::RapidHasher<'s, true, true, false, false>;

/// Builds hashers with a seed of each state and the secrets of this process. Where both come from,
/// [Security](crate#security) says.
///
/// ```
/// use rapidhash::quality::RandomState;
/// use std::collections::HashMap;
///
/// let mut map = HashMap::with_hasher(RandomState::new());
/// map.insert("answer", 42);
/// ```
pub type RandomState = inner::RandomState<true, true, false, false>;

/// Builds hashers with the caller's seed.
///
/// ```
/// use rapidhash::quality::SeedableState;
/// use rapidhash::v3::RapidSecrets;
/// use std::collections::HashMap;
///
/// let secrets = RapidSecrets::seed(0x1234_5678);
/// let state = SeedableState::custom(secrets.seed, &secrets.secrets);
/// let mut map = HashMap::with_hasher(state);
/// map.insert("answer", 42);
/// ```
pub type SeedableState<'s> = inner::SeedableState<'s, true, true, false, false>;

/// Builds hashers with the single seed of this process.
///
/// ```
/// use rapidhash::quality::GlobalState;
///
/// assert_eq!(GlobalState::new(), GlobalState::new());
/// ```
pub type GlobalState = inner::GlobalState<true, true, false, false>;
