//! Builds the attack on known secrets: a word of a message that equals a secret makes the product 0, whatever the seed.
//! The keys are made for the default secrets, so no state of a program may use these. packages/rust/tests/crate.sh runs
//! it with and without std, and over packages/rust/compat.

use rapidhash::v3::{DEFAULT_RAPID_SECRETS, RapidSecrets};
use rapidhash::{fast, quality};
use std::collections::HashSet;
use std::hash::{BuildHasher, Hasher};

const COUNT: u64 = 20_000;

/// Returns keys of 32 bytes: the first default secret, a counter, and 16 equal bytes.
fn keys() -> impl Iterator<Item = [u8; 32]> {
    (0..COUNT).map(|counter| {
        let mut key = [7; 32];
        key[..8].copy_from_slice(&DEFAULT_RAPID_SECRETS.secrets[0].to_le_bytes());
        key[8..16].copy_from_slice(&counter.to_le_bytes());
        key
    })
}

/// Returns the number of different hashes of the keys.
fn distinct(state: &impl BuildHasher) -> u64 {
    let hash = |key: [u8; 32]| {
        let mut hasher = state.build_hasher();
        hasher.write(&key);
        hasher.finish()
    };
    keys().map(hash).collect::<HashSet<_>>().len() as u64
}

/// With the default secrets the attack works, so that the other tests here show something.
#[test]
fn known_secrets_are_no_protection() {
    let own = fast::SeedableState::custom(4711, &DEFAULT_RAPID_SECRETS.secrets);
    assert_eq!(distinct(&own), 1);
    assert_eq!(distinct(&quality::SeedableState::fixed()), 1);
    let own = quality::SeedableState::custom(4711, &DEFAULT_RAPID_SECRETS.secrets);
    assert_eq!(distinct(&own), 1);
}

#[test]
fn states_of_a_program_resist() {
    let made = RapidSecrets::random();
    for (name, distinct) in [
        ("fast::RandomState", distinct(&fast::RandomState::default())),
        ("fast::GlobalState", distinct(&fast::GlobalState::default())),
        ("fast::SeedableState", distinct(&fast::SeedableState::random())),
        ("fast, a seed of the caller", distinct(&fast::SeedableState::new(1))),
        ("quality::RandomState", distinct(&quality::RandomState::default())),
        ("quality::GlobalState", distinct(&quality::GlobalState::default())),
        ("quality::SeedableState", distinct(&quality::SeedableState::random())),
        ("RapidSecrets::random", distinct(&fast::SeedableState::custom(made.seed, &made.secrets))),
    ] {
        assert_eq!(distinct, COUNT, "distinct hashes of {COUNT} keys with {name}");
    }
}
