// Made by scripts/rust_crate from crates/rapidhash/src/key.rt: change that file.

//! Keys of several fields: one hash for each key, the same in every language.
//!
//! A field is nothing (as SQL's NULL), an integer or bytes. Its encoding is a tag, followed by the
//! integer as 8 bytes, or by the number of bytes as 8 bytes and the bytes. All numbers are
//! little-endian. The hash of a key is V3 of its fields' encodings. Different keys have different
//! encodings: `("ab", "c")` is not `("a", "bc")`.

use rapidhash_portable::v3::{RapidSecrets, RapidStreamHasherLanes, RapidStreamHasherV3};

/// A field of a key.
#[non_exhaustive]
#[derive(Debug, Clone, Copy, PartialEq, Eq, Hash)]
pub enum Field<'d> {
    /// Nothing, as SQL's NULL.
    Nothing,
    /// An integer of 64 bits. A negative one is its two's complement.
    Integer(u64),
    /// Bytes. A text is its UTF-8 bytes.
    Bytes(&'d [u8]),
}

/// Returns the hash of a key, with the default seed and secrets. It allocates nothing.
///
/// ```
/// use rapidhash::key::{Field, rapidhash_v3_key};
/// use rapidhash::shards::shard;
///
/// let key = [Field::Bytes(b"user"), Field::Integer(4711), Field::Nothing];
/// let shard = shard(rapidhash_v3_key(&key), 64);
/// ```
///
/// # Proved
///
/// - `result ≡ default_hash v3 standard (key_bytes fields.now)`
#[must_use]
pub fn rapidhash_v3_key(fields: &[Field<'_>]) -> u64 {
    rapidhash_v3_key_seeded(fields, RapidSecrets::default_ref())
}

/// Returns the hash of a key, with the caller's seed and secrets.
///
/// ```
/// use rapidhash::key::{Field, rapidhash_v3_key_seeded};
/// use rapidhash::v3::RapidSecrets;
///
/// let secrets = RapidSecrets::seed(42);
/// let hash = rapidhash_v3_key_seeded(&[Field::Integer(1), Field::Nothing], &secrets);
/// assert_ne!(hash, rapidhash_v3_key_seeded(&[Field::Nothing, Field::Integer(1)], &secrets));
/// ```
///
/// # Proved
///
/// - `result ≡ seeded_hash v3 standard secrets.now (key_bytes fields.now)`
#[must_use]
pub fn rapidhash_v3_key_seeded(fields: &[Field<'_>], secrets: &RapidSecrets) -> u64 {
    let mut hasher = RapidStreamHasherV3::new(secrets);
    for field in fields {
        write_field(&mut hasher, *field);
    }
    hasher.finish()
}

/// Adds a field to the message of a stream hasher.
///
/// # Proved
///
/// - `Appends PROTECTED hasher.old hasher.new (field_bytes field.entry)`
pub fn write_field<const LANES: usize, const AVALANCHE: bool, const PROTECTED: bool>(
    hasher: &mut RapidStreamHasherLanes<'_, LANES, AVALANCHE, PROTECTED>,
    field: Field<'_>,
) {
    match field {
        Field::Nothing => write_nothing(hasher),
        Field::Integer(number) => write_integer(hasher, number),
        Field::Bytes(bytes) => write_bytes(hasher, bytes),
    }
}

/// Adds a field that is nothing.
///
/// # Proved
///
/// - `Appends PROTECTED hasher.old hasher.new (content_bytes Missing)`
pub fn write_nothing<const LANES: usize, const AVALANCHE: bool, const PROTECTED: bool>(
    hasher: &mut RapidStreamHasherLanes<'_, LANES, AVALANCHE, PROTECTED>,
) {
    hasher.write(&[0]);
}

/// Adds a field that is an integer.
///
/// # Proved
///
/// - `Appends PROTECTED hasher.old hasher.new (content_bytes (Number number))`
pub fn write_integer<const LANES: usize, const AVALANCHE: bool, const PROTECTED: bool>(
    hasher: &mut RapidStreamHasherLanes<'_, LANES, AVALANCHE, PROTECTED>,
    number: u64,
) {
    hasher.write(&[1]);
    hasher.write(&number.to_le_bytes());
}

/// Adds a field of bytes.
///
/// # Proved
///
/// - `Appends PROTECTED hasher.old hasher.new (content_bytes (Text bytes.now))`
pub fn write_bytes<const LANES: usize, const AVALANCHE: bool, const PROTECTED: bool>(
    hasher: &mut RapidStreamHasherLanes<'_, LANES, AVALANCHE, PROTECTED>,
    bytes: &[u8],
) {
    hasher.write(&[2]);
    hasher.write(&(bytes.len() as u64).to_le_bytes());
    hasher.write(bytes);
}
