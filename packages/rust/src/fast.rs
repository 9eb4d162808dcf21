//! The hasher and the states of maps, without the avalanche. Some related keys then have related hashes, and a few
//! pairs of short texts have the same one. A map compares its keys, so it stays correct. [`crate::quality`] costs one
//! multiply more per hash, and is for filters, sketches and shards.
//!
//! Integers are packed (`SPONGE`), and neither a write of bytes nor the hash is mixed once more.
//!
//! ```
//! use rapidhash::fast::SeedableState;
//! use std::hash::{BuildHasher, Hasher};
//!
//! let mut hasher = SeedableState::fixed().build_hasher();
//! hasher.write(b"user:4711");
//! let hash = hasher.finish();
//! ```

use crate::inner;

/// The hasher of maps, without the avalanche.
///
/// ```
/// use rapidhash::fast::RapidHasher;
/// use std::hash::Hasher;
///
/// let mut hasher = RapidHasher::default();
/// hasher.write(b"user:4711");
/// let hash = hasher.finish();
/// ```
pub type RapidHasher<'s> = inner::RapidHasher<'s, false, true, false, false>;

/// Builds hashers with a seed of each state and the secrets of this process. Where both come from,
/// [Security](crate#security) says.
///
/// ```
/// use rapidhash::fast::RandomState;
/// use std::collections::HashMap;
///
/// let mut map = HashMap::with_hasher(RandomState::new());
/// map.insert("answer", 42);
/// ```
pub type RandomState = inner::RandomState<false, true, false, false>;

/// Builds hashers with the caller's seed.
///
/// ```
/// use rapidhash::fast::SeedableState;
/// use rapidhash::v3::RapidSecrets;
/// use std::collections::HashMap;
///
/// let secrets = RapidSecrets::seed(0x1234_5678);
/// let state = SeedableState::custom(secrets.seed, &secrets.secrets);
/// let mut map = HashMap::with_hasher(state);
/// map.insert("answer", 42);
/// ```
pub type SeedableState<'s> = inner::SeedableState<'s, false, true, false, false>;

/// Builds hashers with the single seed of this process.
///
/// ```
/// use rapidhash::fast::GlobalState;
///
/// assert_eq!(GlobalState::new(), GlobalState::new());
/// ```
pub type GlobalState = inner::GlobalState<false, true, false, false>;
