// Made by scripts/rust_crate from crates/rapidhash_portable/src/v2.rt: change that file.

//! rapidhash V2, in its three minors.

#[cfg(feature = "std")]
mod readers;

use crate::kernel::v2::hash;
use crate::kernel::{MIXED, NOT_COMPACT, PLAIN};
pub use crate::secrets::{DEFAULT_RAPID_SECRETS, RapidSecrets};
#[cfg(feature = "std")]
pub use readers::{rapidhash_v2_2_file, rapidhash_v2_2_file_seeded, rapidhash_v2_file_inline, rapidhash_v2_source};

const_fn! {
/// Returns the V2.2 hash of `bytes` with the default seed and secrets.
///
/// ```
/// use rapidhash::v2::rapidhash_v2_2;
///
/// let bytes: Vec<u8> = (0..60).collect();
/// assert_eq!(rapidhash_v2_2(&bytes), 6181707366222537282);
/// ```
///
/// # Proved
///
/// - `result ≡ default_hash (V2 2) standard bytes.now`
#[inline(always)]
#[must_use]
pub const fn rapidhash_v2_2(bytes: &[u8]) -> u64 {
    rapidhash_v2_inline::<2, MIXED, NOT_COMPACT, PLAIN>(bytes, RapidSecrets::default_ref())
}
}

const_fn! {
/// Returns the V2.2 hash of `bytes` with the caller's seed and secrets.
///
/// ```
/// use rapidhash::v2::{RapidSecrets, rapidhash_v2_2_seeded};
///
/// let secrets = RapidSecrets::seed(0x1234_5678);
/// let hash = rapidhash_v2_2_seeded(b"hello", &secrets);
/// ```
///
/// # Proved
///
/// - `result ≡ seeded_hash (V2 2) standard secrets.now bytes.now`
#[inline(always)]
#[must_use]
pub const fn rapidhash_v2_2_seeded(bytes: &[u8], secrets: &RapidSecrets) -> u64 {
    rapidhash_v2_inline::<2, MIXED, NOT_COMPACT, PLAIN>(bytes, secrets)
}
}

const_fn! {
/// Returns the hash of `bytes` with every option.
///
/// - `MINOR` is 0, 1 or 2, for V2.0, V2.1 and V2.2. A call with any other does not compile.
/// - `AVALANCHE` mixes the last product once more. Without it the values are not those of
///   [`rapidhash_v2_2`]: leave it out only if what uses the hash mixes by itself.
/// - `COMPACT` folds one row at a time instead of two: less code, the same value.
/// - With `PROTECTED`, a message cannot cancel its earlier bytes by containing a secret. The hashes
///   differ from those without it, and hashing is slower.
///
/// ```
/// use rapidhash::v2::{DEFAULT_RAPID_SECRETS, rapidhash_v2_inline};
///
/// let bytes: Vec<u8> = (0..60).collect();
/// let hash = rapidhash_v2_inline::<0, true, false, false>(&bytes, &DEFAULT_RAPID_SECRETS);
/// assert_eq!(hash, 13186137053657766175);
/// ```
///
/// # Proved
///
/// - `result ≡ seeded_hash (V2 MINOR) (options AVALANCHE PROTECTED) secrets.now bytes.now`
#[inline(always)]
#[must_use]
pub const fn rapidhash_v2_inline<const MINOR: u8, const AVALANCHE: bool, const COMPACT: bool, const PROTECTED: bool>(
    bytes: &[u8],
    secrets: &RapidSecrets,
) -> u64 {
    prove!(MINOR <= 2, "MINOR must be 0, 1 or 2");
    hash::<MINOR, AVALANCHE, COMPACT, PROTECTED>(bytes, secrets.seed, &secrets.secrets)
}
}
