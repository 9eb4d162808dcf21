// Made by scripts/rust_crate from crates/rapidhash/src/shards.rt: change that file.

//! What a hash decides: a shard or a bucket, with the same value in every language.
//!
//! Cut a table into shards with [`shard`]. They are equally large to one hash, and intervals of
//! the hashes, so that [`first_hash`] is the bound of a range. Multiplying the count splits each
//! shard. For servers that come one by one use [`bucket`]: a hash then moves only to a new bucket.

/// Returns the shard of a hash, below `count`: the integer part of `hash * count / 2^64`.
///
/// The hashes of a shard share their highest bits. If you use the same hash again inside a shard,
/// take its lowest bits.
///
/// ```
/// use rapidhash::shards::shard;
/// use rapidhash::v3::rapidhash_v3;
///
/// assert_eq!(shard(rapidhash_v3(b"hello"), 10), 1);
/// assert_eq!(shard(u64::MAX, 10), 9);
/// ```
///
/// # Panics
///
/// If `count` is 0.
///
/// # Proved
///
/// - `result ≡ shard_of hash count`
/// - `result < count`
/// - `ShardLaws hash count result`
#[inline]
#[must_use]
pub const fn shard(hash: u64, count: u64) -> u64 {
    prove!(count > 0, "the count must be at least 1");
    (hash as u128 * count as u128 / 0x1_0000_0000_0000_0000) as u64
}

/// Returns the first hash of a shard. The shard has the hashes from it to before the first of the
/// next shard: 2^64 / `count` of them, or one more.
///
/// ```
/// use rapidhash::shards::{first_hash, shard};
///
/// assert_eq!(first_hash(1, 10), 1844674407370955162);
/// assert_eq!(shard(1844674407370955161, 10), 0);
/// assert_eq!(shard(1844674407370955162, 10), 1);
/// ```
///
/// # Panics
///
/// If `shard` is not below `count`.
///
/// # Proved
///
/// - `result ≡ first_hash_of shard count`
/// - `FirstLaws shard count result`
#[inline]
#[must_use]
pub const fn first_hash(shard: u64, count: u64) -> u64 {
    prove!(shard < count, "the shard must be below the count");
    let product = shard as u128 * 0x1_0000_0000_0000_0000;
    ((product + (count - 1) as u128) / count as u128) as u64
}

/// Returns the bucket of a hash, below `count`, by jump consistent hashing in integers: among more
/// buckets a hash keeps its bucket or goes to a new one.
///
/// The time grows with the logarithm of `count`: some 14 steps for a million buckets.
///
/// ```
/// use rapidhash::shards::bucket;
/// use rapidhash::v3::rapidhash_v3;
///
/// let hash = rapidhash_v3(b"hello");
/// assert_eq!([bucket(hash, 9), bucket(hash, 10), bucket(hash, 11)], [4, 4, 4]);
/// ```
///
/// # Panics
///
/// If `count` is 0.
///
/// # Proved
///
/// - `IsBucket hash count result`
/// - `result < count`
/// - `(more other : ℕ) → count ≤ more → IsBucket hash more other → (other ≡ result) ⊎ (count ≤ other)`
#[must_use]
pub fn bucket(hash: u64, count: u32) -> u32 {
    prove!(count > 0, "the count must be at least 1");
    let mut at = 0;
    let mut state = next_state(hash);
    let mut next = jump(state, at);
    while next < count as u64 {
        at = next as u32;
        state = next_state(state);
        next = jump(state, at);
    }
    at
}

// Returns the state after a state.
fn next_state(state: u64) -> u64 {
    state.wrapping_mul(2_862_933_555_777_941_757).wrapping_add(1)
}

// Returns the bucket to which a state jumps from another bucket. Of the 2^31 words of a state, a
// share of (bucket + 1) / n jumps to n or past it.
fn jump(state: u64, bucket: u32) -> u64 {
    (bucket as u64 + 1) * 0x8000_0000 / ((state >> 33) + 1)
}
