//! Tests the states of `fast`, `quality`, and `inner`, with secrets of the caller and the process.

use rapidhash::inner::{GlobalSecrets, SeedSource};
use rapidhash::rng::RapidRng;
use rapidhash::v3::RapidSecrets;
use rapidhash::{fast, inner, quality};
use std::hash::{BuildHasher, Hasher};

/// Returns the hash of an integer, which waits in the sponge, and four bytes.
fn hash_by(mut hasher: impl Hasher) -> u64 {
    hasher.write_u64(4711);
    hasher.write(b"user");
    hasher.finish()
}

fn hash_of<S: BuildHasher>(state: &S) -> u64 {
    hash_by(state.build_hasher())
}

/// Returns the seed of a state of `fast`: a hasher that has absorbed nothing returns it.
fn seed_of<S: BuildHasher + Copy>(state: &S) -> u64 {
    state.build_hasher().finish()
}

/// The expected hashes are those of the crate, from hashers with these seeds and secrets.
#[test]
fn states_of_known_seeds() {
    let own = RapidSecrets::seed(0x1234_5678);
    let state = fast::SeedableState::custom(own.seed, &own.secrets);
    assert_eq!(hash_of(&state), 10106110107239218242);
    let state = quality::SeedableState::custom(own.seed, &own.secrets);
    assert_eq!(hash_of(&state), 10622765197646220428);
    assert_eq!(hash_of(&fast::SeedableState::fixed()), 6021588442437052047);
    assert_eq!(hash_of(&quality::SeedableState::fixed()), 829435165229610713);
    assert_eq!(hash_by(fast::RapidHasher::default()), 6021588442437052047);
    assert_eq!(hash_by(quality::RapidHasher::default()), 829435165229610713);
    let secrets = GlobalSecrets::new(1);
    let global = fast::SeedableState::custom(secrets.get_global_seed(), secrets.get());
    assert_eq!(hash_of(&global), 1604029122039678008);
    let mut source = SeedSource::new(&secrets, 11233534814198372660);
    let random = fast::SeedableState::custom(source.next(), secrets.get());
    assert_eq!(hash_of(&random), 16952220623277801737);
}

/// Tests hashers without a state. The expected hashes are those of the crate.
#[test]
fn hashers_of_known_seeds() {
    let (mut fast, mut quality) = (fast::RapidHasher::default(), quality::RapidHasher::default());
    fast.write(b"user:4711");
    quality.write(b"user:4711");
    assert_eq!(fast.finish(), 8987465637866267961);
    assert_eq!(quality.finish(), 10149454754179209030);
    let mut seeded = fast::RapidHasher::new(0x1234_5678);
    seeded.write_u32(7);
    assert_eq!(seeded.finish(), 10860222744612077996);
    let mut byte = fast::RapidHasher::default();
    byte.write_u8(2);
    assert_eq!(byte.finish(), 10048983286878558978);
}

/// Each type builds hashers with its own options.
#[test]
fn aliases_name_their_options() {
    let fast: inner::SeedableState<false, true> = fast::SeedableState::fixed();
    let quality: inner::SeedableState<true, true, false, false> = quality::SeedableState::fixed();
    let hasher: inner::RapidHasher<true, true> = quality.build_hasher();
    assert_ne!(hasher.finish(), fast.build_hasher().finish());
}

#[test]
fn aliases_of_random_states() {
    let _: inner::RandomState<false, true, false, false> = fast::RandomState::new();
    let _: inner::RandomState<true, true, false, false> = quality::RandomState::new();
    let _: inner::GlobalState<false, true, false, false> = fast::GlobalState::new();
    let _: inner::GlobalState<true, true, false, false> = quality::GlobalState::new();
}

#[test]
#[allow(deprecated)]
fn states_are_equal_by_seed_and_secrets() {
    let state = fast::SeedableState::custom(1, &[2; 7]);
    assert!(state == fast::SeedableState::with_seed(1, &[2; 7]));
    assert!(state != fast::SeedableState::with_seed(1 << 40 | 1, &[2; 7]));
    assert!(state != fast::SeedableState::custom(2, &[2; 7]));
    assert!(state != fast::SeedableState::custom(1, &[2, 2, 2, 2, 2, 2, 3]));
}

#[test]
fn states_without_words() {
    let (one, other) = (fast::RandomState::new(), fast::RandomState::default());
    assert!(one != other && hash_of(&one) != hash_of(&other));
    assert_eq!(hash_of(&one), hash_of(&one.clone()));
    assert!(quality::GlobalState::new() == quality::GlobalState::default());
    assert!(fast::SeedableState::random() != fast::SeedableState::default());
    assert!(fast::SeedableState::default() != fast::SeedableState::default());
    assert!(fast::SeedableState::new(5) == fast::SeedableState::new(5));
    assert!(fast::SeedableState::new(5) != fast::SeedableState::new(6));
    let own = RapidSecrets::random().secrets;
    assert!(own != RapidSecrets::seed_cpp(0).secrets);
    let seed = RapidSecrets::seed_cpp(5 << 40).seed;
    assert!(fast::SeedableState::new(5 << 40) == fast::SeedableState::custom(seed, &own));
    let random = fast::SeedableState::random();
    assert!(random == fast::SeedableState::custom(seed_of(&random), &own));
    let same = fast::SeedableState::custom(seed_of(&one), &own);
    assert_eq!(hash_of(&one), hash_of(&same));
    let global = fast::GlobalState::new();
    let same = fast::SeedableState::custom(seed_of(&global), &own);
    assert_eq!(hash_of(&global), hash_of(&same));
    assert!(RapidSecrets::random() != RapidSecrets::random());
    let debug = format!("{:?} {:?} {:?}", one, global, fast::SeedableState::fixed());
    assert_eq!(debug, "RandomState { .. } GlobalState { .. } SeedableState { .. }");
}

/// Each bit of a seed is set in some states and generators alone.
#[test]
fn seeds_have_64_bits() {
    for next in [
        || RapidSecrets::random().seed,
        || u64::from_le_bytes(RapidRng::default().state()),
        || seed_of(&fast::RandomState::new()),
        || seed_of(&fast::SeedableState::random()),
    ] {
        let seeds: Vec<u64> = (0..200).map(|_| next()).collect();
        assert_eq!(seeds.iter().fold(0, |all, seed| all | seed), u64::MAX);
        assert_eq!(seeds.iter().fold(u64::MAX, |all, seed| all & seed), 0);
    }
}

/// All threads have the secrets of the process, but no thread has the seeds of another.
#[cfg(feature = "std")]
#[test]
fn threads_share_secrets_and_no_seeds() {
    use std::{collections::HashSet, thread};

    let run = || thread::spawn(|| (hash_of(&fast::GlobalState::new()), RapidSecrets::random()));
    let threads: Vec<_> = (0..8).map(|_| run()).collect();
    let found: Vec<_> = threads.into_iter().map(|thread| thread.join().unwrap()).collect();
    let here = (hash_of(&fast::GlobalState::new()), RapidSecrets::random());
    assert!(found.iter().all(|(hash, made)| (*hash, made.secrets) == (here.0, here.1.secrets)));
    let seeds: HashSet<u64> = found.iter().map(|(_, made)| made.seed).collect();
    assert_eq!(seeds.len(), 8);
}

#[test]
fn hashers_in_constants() {
    const HASHER: fast::RapidHasher<'static> = fast::RapidHasher::default_const();
    const SECRETS: RapidSecrets = RapidSecrets::seed(0x12_3456).reseed();
    assert_eq!(HASHER.finish(), fast::RapidHasher::new(0).finish());
    assert_eq!(SECRETS, RapidSecrets::seed(0x12_3456).reseed());
}
