// Made by scripts/rust_crate from crates/rapidhash_portable/src/v1.rt: change that file.

//! rapidhash V1.

#[cfg(feature = "std")]
mod readers;

use crate::kernel::v1::hash;
use crate::kernel::{MIXED, NOT_COMPACT, PLAIN};
pub use crate::secrets::v1::{DEFAULT_RAPID_SECRETS, RapidSecrets};
#[cfg(feature = "std")]
pub use readers::{rapidhash_v1_file, rapidhash_v1_file_inline, rapidhash_v1_file_seeded, rapidhash_v1_source};

const_fn! {
/// Returns the hash of `bytes` with the default seed and secrets. The value is the same on every
/// machine and in every version, so it may be stored. It is not cryptographic.
///
/// ```
/// use rapidhash::v1::rapidhash_v1;
///
/// assert_eq!(rapidhash_v1(b"something\n"), 15965596575264898037);
/// ```
///
/// # Proved
///
/// - `result ≡ default_hash (V1 false) standard bytes.now`
#[inline(always)]
#[must_use]
pub const fn rapidhash_v1(bytes: &[u8]) -> u64 {
    rapidhash_v1_inline::<MIXED, NOT_COMPACT, PLAIN, false>(bytes, RapidSecrets::default_ref())
}
}

const_fn! {
/// Returns the hash of `bytes` with the caller's seed and secrets. Collisions that were prepared
/// for other secrets usually fail. An attacker who sees hashes may still find some.
///
/// ```
/// use rapidhash::v1::{DEFAULT_RAPID_SECRETS, rapidhash_v1_seeded};
///
/// assert_eq!(rapidhash_v1_seeded(b"something\n", &DEFAULT_RAPID_SECRETS), 15965596575264898037);
/// ```
///
/// # Proved
///
/// - `result ≡ seeded_hash_v1 false standard secrets.now bytes.now`
#[inline(always)]
#[must_use]
pub const fn rapidhash_v1_seeded(bytes: &[u8], secrets: &RapidSecrets) -> u64 {
    rapidhash_v1_inline::<MIXED, NOT_COMPACT, PLAIN, false>(bytes, secrets)
}
}

const_fn! {
/// Returns the hash of `bytes` with every option.
///
/// - `AVALANCHE` mixes the last product once more. Without it the values are not those of
///   [`rapidhash_v1`]: leave it out only if what uses the hash mixes by itself.
/// - `COMPACT` folds one row at a time instead of two: less code, the same value.
/// - With `PROTECTED`, a message cannot cancel its earlier bytes by containing a secret. The hashes
///   differ from those without it, and hashing is slower.
/// - `V1_BUG` folds a row at 48 bytes, for values that versions 1.x of the Rust crate have stored.
///
/// ```
/// use rapidhash::v1::{DEFAULT_RAPID_SECRETS, rapidhash_v1_inline};
///
/// let secrets = &DEFAULT_RAPID_SECRETS;
/// let hash = rapidhash_v1_inline::<true, false, false, false>(b"something\n", secrets);
/// assert_eq!(hash, 15965596575264898037);
/// ```
///
/// # Proved
///
/// - `result ≡ seeded_hash_v1 V1_BUG (options AVALANCHE PROTECTED) secrets.now bytes.now`
#[inline(always)]
#[must_use]
pub const fn rapidhash_v1_inline<const AVALANCHE: bool, const COMPACT: bool, const PROTECTED: bool, const V1_BUG: bool>(
    bytes: &[u8],
    secrets: &RapidSecrets,
) -> u64 {
    hash::<AVALANCHE, COMPACT, PROTECTED, V1_BUG>(bytes, secrets.seed, &secrets.secrets)
}
}
