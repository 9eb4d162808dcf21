// Made by scripts/rust_crate from crates/rapidhash/src/fingerprints.rt: change that file.

//! The fingerprint of a table: a number for the hashes of its rows, in any order.
//!
//! Two tables with equally many rows and one fingerprint have the same rows, but for a chance of
//! one in 2^64. That does not hold against someone who chooses the rows, nor where rows are
//! repeated very often: 2^k copies of a row lose k bits of its hash.

/// Returns the fingerprint of hashes: their sum modulo 2^64, and 0 of none.
///
/// ```
/// use rapidhash::fingerprints::{add, fingerprint};
/// use rapidhash::key;
///
/// let rows = [key::hash(&("user", 1)), key::hash(&("user", 2))];
/// assert_eq!(fingerprint(&rows), fingerprint(&[rows[1], rows[0]]));
/// assert_eq!(fingerprint(&rows), add(fingerprint(&rows[..1]), rows[1]));
/// ```
///
/// # Proved
///
/// - `result ≡ fingerprint_of hashes.now`
/// - `FingerprintLaws hashes.now result`
#[must_use]
pub fn fingerprint(hashes: &[u64]) -> u64 {
    let mut sum: u64 = 0;
    for hash in hashes {
        sum = sum.wrapping_add(*hash);
    }
    sum
}

/// Returns the fingerprint of two parts together. A part may be a single hash.
///
/// # Proved
///
/// - `(x y : List ℕ) → fingerprint ≡ fingerprint_of x → other ≡ fingerprint_of y → result ≡ fingerprint_of (x ++ y)`
#[inline]
#[must_use]
pub const fn add(fingerprint: u64, other: u64) -> u64 {
    fingerprint.wrapping_add(other)
}

/// Returns the fingerprint of what is left without a part, which may be a single hash.
///
/// ```
/// use rapidhash::fingerprints::{add, remove};
///
/// assert_eq!(remove(add(7, u64::MAX), u64::MAX), 7);
/// ```
///
/// # Proved
///
/// - `(x y : List ℕ) → fingerprint ≡ fingerprint_of (x ++ y) → part ≡ fingerprint_of y → result ≡ fingerprint_of x`
#[inline]
#[must_use]
pub const fn remove(fingerprint: u64, part: u64) -> u64 {
    fingerprint.wrapping_sub(part)
}
