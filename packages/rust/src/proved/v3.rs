// Made by scripts/rust_crate from crates/rapidhash_portable/src/v3.rt: change that file.

//! rapidhash V3, and its relatives micro and nano, which differ from it in the number of lanes.

#[cfg(feature = "std")]
mod readers;
mod stream;

use crate::kernel::v3::hash;
use crate::kernel::{MIXED, NOT_COMPACT, PLAIN};
pub use crate::secrets::{DEFAULT_RAPID_SECRETS, RapidSecrets};
#[cfg(feature = "std")]
pub use readers::{
    rapidhash_v3_file, rapidhash_v3_file_inline, rapidhash_v3_file_lanes, rapidhash_v3_file_seeded,
    rapidhash_v3_file_sized, rapidhash_v3_source, rapidhash_v3_source_lanes, rapidhash_v3_source_sized,
};
pub use stream::{
    RapidStream, RapidStreamHasherInlineMicro, RapidStreamHasherInlineNano, RapidStreamHasherInlineV3,
    RapidStreamHasherLanes, RapidStreamHasherV3, SAVED_SIZE,
};

const_fn! {
/// Returns the hash of `bytes` with the default seed and secrets. The value is the same on every
/// machine and in every version, so it may be stored. It is not cryptographic.
///
/// ```
/// use rapidhash::v3::rapidhash_v3;
///
/// assert_eq!(rapidhash_v3(b"hello"), 3327445792987248966);
/// ```
///
/// # Proved
///
/// - `result ≡ default_hash v3 standard bytes.now`
#[inline(always)]
#[must_use]
pub const fn rapidhash_v3(bytes: &[u8]) -> u64 {
    let secrets = RapidSecrets::default_ref();
    hash::<7, MIXED, NOT_COMPACT, PLAIN>(bytes, secrets.seed, &secrets.secrets)
}
}

const_fn! {
/// Returns the hash of `bytes` with the caller's seed and secrets. Collisions that were prepared
/// for other secrets usually fail. An attacker who sees hashes may still find some.
///
/// ```
/// use rapidhash::v3::{RapidSecrets, rapidhash_v3_seeded};
///
/// let secrets = RapidSecrets::seed(0x1234_5678);
/// let hash = rapidhash_v3_seeded(b"hello", &secrets);
/// ```
///
/// # Proved
///
/// - `result ≡ seeded_hash v3 standard secrets.now bytes.now`
#[inline(always)]
#[must_use]
pub const fn rapidhash_v3_seeded(bytes: &[u8], secrets: &RapidSecrets) -> u64 {
    rapidhash_v3_inline::<MIXED, NOT_COMPACT, PLAIN>(bytes, secrets)
}
}

const_fn! {
/// Returns the hash of `bytes` with every option.
///
/// - `AVALANCHE` mixes the last product once more. Without it the values are not those of
///   [`rapidhash_v3`]: leave it out only if what uses the hash mixes by itself.
/// - `COMPACT` folds one row at a time instead of two: less code, the same value.
/// - With `PROTECTED`, a message cannot cancel its earlier bytes by containing a secret. The hashes
///   differ from those without it, and hashing is slower.
///
/// ```
/// use rapidhash::v3::{DEFAULT_RAPID_SECRETS, rapidhash_v3_inline};
///
/// let hash = rapidhash_v3_inline::<true, true, false>(b"hello", &DEFAULT_RAPID_SECRETS);
/// assert_eq!(hash, 3327445792987248966);
/// ```
///
/// # Proved
///
/// - `result ≡ seeded_hash v3 (options AVALANCHE PROTECTED) secrets.now bytes.now`
#[inline(always)]
#[must_use]
pub const fn rapidhash_v3_inline<const AVALANCHE: bool, const COMPACT: bool, const PROTECTED: bool>(
    bytes: &[u8],
    secrets: &RapidSecrets,
) -> u64 {
    hash::<7, AVALANCHE, COMPACT, PROTECTED>(bytes, secrets.seed, &secrets.secrets)
}
}

const_fn! {
/// Returns the hash of `bytes` with five lanes. Up to 80 bytes it is V3's. The options are those of
/// [`rapidhash_v3_inline`].
///
/// ```
/// use rapidhash::v3::{DEFAULT_RAPID_SECRETS, rapidhash_v3_micro_inline};
///
/// let hash = rapidhash_v3_micro_inline::<true, false>(b"hello", &DEFAULT_RAPID_SECRETS);
/// assert_eq!(hash, 3327445792987248966);
/// ```
///
/// # Proved
///
/// - `result ≡ seeded_hash micro (options AVALANCHE PROTECTED) secrets.now bytes.now`
#[inline(always)]
#[must_use]
pub const fn rapidhash_v3_micro_inline<const AVALANCHE: bool, const PROTECTED: bool>(
    bytes: &[u8],
    secrets: &RapidSecrets,
) -> u64 {
    hash::<5, AVALANCHE, NOT_COMPACT, PROTECTED>(bytes, secrets.seed, &secrets.secrets)
}
}

const_fn! {
/// Returns the hash of `bytes` with three lanes, with less code than V3 and micro. Up to 48 bytes
/// it equals V3's. The options are those of [`rapidhash_v3_inline`].
///
/// ```
/// use rapidhash::v3::{DEFAULT_RAPID_SECRETS, rapidhash_v3_nano_inline};
///
/// let hash = rapidhash_v3_nano_inline::<true, false>(b"hello", &DEFAULT_RAPID_SECRETS);
/// assert_eq!(hash, 3327445792987248966);
/// ```
///
/// # Proved
///
/// - `result ≡ seeded_hash nano (options AVALANCHE PROTECTED) secrets.now bytes.now`
#[inline(always)]
#[must_use]
pub const fn rapidhash_v3_nano_inline<const AVALANCHE: bool, const PROTECTED: bool>(
    bytes: &[u8],
    secrets: &RapidSecrets,
) -> u64 {
    hash::<3, AVALANCHE, NOT_COMPACT, PROTECTED>(bytes, secrets.seed, &secrets.secrets)
}
}
