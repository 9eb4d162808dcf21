//! Uses each part of the interface that differs between the crate `rapidhash` and the proved crate, and maps of other
//! crates over its states. packages/rust/tests/crate.sh builds it with this package as a patch of crates.io. The
//! expected values are those of the crate.
#![allow(deprecated)]

use rapidhash::fast::{HashMapExt, HashSetExt, RapidHashMap, RapidHashSet};
use rapidhash::rng::{RapidRng, rapidrng_fast, rapidrng_fast_not_portable, rapidrng_time};
use rapidhash::{fast, inner, quality, v1, v2, v3};
use std::fs::File;
use std::hash::BuildHasher;
use std::io::{Result, Seek, SeekFrom, Write};

const HELLO: u64 = v3::rapidhash_v3(b"hello");
static SEEDED: u64 = v2::rapidhash_v2_2_seeded(b"hello", &v2::DEFAULT_RAPID_SECRETS);

/// The name of a word, by its hash.
fn named(word: &[u8]) -> &'static str {
    const CAT: u64 = v1::rapidhash_v1(b"cat");
    const DOG: u64 = v1::rapidhash_v1(b"dog");
    match v1::rapidhash_v1(word) {
        CAT => "cat",
        DOG => "dog",
        _ => "none",
    }
}

#[test]
fn hashes_are_constants() {
    let places = [0u8; (v3::rapidhash_v3(b"hello") % 64) as usize];
    assert_eq!(HELLO, 3327445792987248966);
    assert_eq!(places.len() as u64, HELLO % 64);
    assert_eq!(SEEDED, v2::rapidhash_v2_2(b"hello"));
    assert_eq!((named(b"cat"), named(b"dog"), named(b"cow")), ("cat", "dog", "none"));
}

/// Two types of secrets can both implement a trait.
trait Named {
    const NAME: &'static str;
}

impl Named for v2::RapidSecrets {
    const NAME: &'static str = "v2";
}

impl Named for v3::RapidSecrets {
    const NAME: &'static str = "v3";
}

#[test]
fn secrets_of_two_versions() {
    assert_ne!(v2::RapidSecrets::NAME, v3::RapidSecrets::NAME);
    let number = u64::MAX - 7;
    let two = [v2::RapidSecrets::seed, v2::RapidSecrets::seed_cpp].map(|make| make(number));
    let three = [v3::RapidSecrets::seed, v3::RapidSecrets::seed_cpp].map(|make| make(number));
    for (two, three) in two.iter().zip(&three) {
        assert_eq!((two.seed, two.secrets), (three.seed, three.secrets));
        let (two, three) = (two.reseed(), three.reseed());
        assert_eq!((two.seed, two.secrets), (three.seed, three.secrets));
    }
    assert_ne!(v2::RapidSecrets::random().seed, v2::RapidSecrets::random().seed);
    assert_eq!(v2::RapidSecrets::random().secrets, v3::RapidSecrets::random().secrets);
}

/// V1 and V2 hash the rest of a file by its metadata, and report a file that is shorter than that. The minor versions
/// of V2 differ at 60 bytes.
#[test]
fn files_by_their_metadata() -> Result<()> {
    let path = std::env::temp_dir().join(format!("drop_in_{}", std::process::id()));
    let (one, two) = (v1::RapidSecrets::seed(3), v2::RapidSecrets::seed(3));
    let three = v3::RapidSecrets::seed(3);
    for size in [60, 70_000] {
        let text = vec![7u8; size];
        File::create(&path)?.write_all(&text)?;
        let mut file = File::open(&path)?;
        let calls: [(&dyn Fn(&mut File) -> Result<u64>, u64); 7] = [
            (&v1::rapidhash_v1_file, v1::rapidhash_v1(&text)),
            (&|file| v1::rapidhash_v1_file_seeded(file, &one), v1::rapidhash_v1_seeded(&text, &one)),
            (
                &|file| v1::rapidhash_v1_file_inline::<true>(file, &one),
                v1::rapidhash_v1_inline::<true, false, true, false>(&text, &one),
            ),
            (&v2::rapidhash_v2_2_file, v2::rapidhash_v2_2(&text)),
            (&|file| v2::rapidhash_v2_2_file_seeded(file, &two), v2::rapidhash_v2_2_seeded(&text, &two)),
            (
                &|file| v2::rapidhash_v2_file_inline::<1, true>(file, &two),
                v2::rapidhash_v2_inline::<1, true, false, true>(&text, &two),
            ),
            (&|file| v3::rapidhash_v3_file_seeded(file, &three), v3::rapidhash_v3_seeded(&text, &three)),
        ];
        for (call, hash) in calls {
            file.rewind()?;
            assert_eq!(call(&mut file)?, hash);
        }
        // The file is at its end now.
        let short = v1::rapidhash_v1_file(&mut file).unwrap_err();
        assert_eq!(short.kind(), std::io::ErrorKind::UnexpectedEof);
    }
    // The rest alone has as many bytes as the lower half of the length.
    File::create(&path)?.set_len((1 << 32) + 5)?;
    let mut file = File::open(&path)?;
    for call in [v1::rapidhash_v1_file, v2::rapidhash_v2_2_file] {
        file.seek(SeekFrom::Start(1 << 32))?;
        assert!(call(&mut file).is_err());
    }
    std::fs::remove_file(&path)
}

#[test]
fn generator() {
    use rand_core::{RngCore, SeedableRng};
    let number = u64::MAX - 5;
    let (mut ours, mut state) = (RapidRng::seed_from_u64(number), number);
    assert_eq!(RngCore::next_u64(&mut ours), rapidrng_fast(&mut state));
    let mut bytes = [0; 12];
    let mut filled = RapidRng::from_seed(number.to_le_bytes());
    filled.fill_bytes(&mut bytes);
    let (mut tried, mut state) = ([0; 12], number);
    RapidRng::new(number).try_fill_bytes(&mut tried).unwrap();
    assert_eq!(bytes[..8], rapidrng_fast(&mut state).to_le_bytes());
    assert_eq!(bytes[8..], rapidrng_fast(&mut state).to_le_bytes()[..4]);
    assert_eq!((tried, filled), (bytes, RapidRng::new(state)));
    assert_eq!(filled.state(), state.to_le_bytes());
    let mut before_one = 0xd2ca_7233_5593_875c;
    let word = rapidrng_fast_not_portable(&mut before_one);
    assert_eq!((word, before_one), (0x8bb8_4b93_962e_acc9, 1));
    assert_eq!(RapidRng::new(1).next_u32(), RapidRng::new(1).next() as u32);
    let mut seed = 1;
    assert_ne!(rapidrng_time(&mut seed), rapidrng_time(&mut seed));
    assert_ne!(seed, 1);
    assert_ne!(RapidRng::default().state(), RapidRng::default().state());
}

/// Uses the names of V3 that no other test uses. `inline` of V2 without the avalanche has a hash of its own.
#[test]
fn hashes_with_every_option() {
    let (bytes, secrets) = ((0..120).collect::<Vec<u8>>(), v3::RapidSecrets::seed_cpp(1));
    let known = v3::rapidhash_v3_seeded(&bytes, &secrets);
    let mut plain = v3::RapidStreamHasherV3::new(&secrets);
    let mut inline = v3::RapidStreamHasherInlineV3::<true, false>::new(&secrets);
    plain.write(&bytes);
    inline.write(&bytes);
    assert_eq!((plain.finish(), inline.finish()), (known, known));
    let all = v3::rapidhash_v3_inline::<true, false, false>(&bytes, &secrets);
    let read = v3::rapidhash_v3_file_inline::<&[u8], false>(&bytes, &secrets).unwrap();
    assert_eq!((all, read), (known, known));
    let micro = v3::rapidhash_v3_micro_inline::<true, false>(&bytes, &secrets);
    assert_eq!(micro, 13208658450986943527);
    let nano = v3::rapidhash_v3_nano_inline::<true, false>(&bytes, &v3::DEFAULT_RAPID_SECRETS);
    assert_eq!(nano, 3778853990780631382);
    let own = v2::RapidSecrets::seed(3);
    let mixed = v2::rapidhash_v2_inline::<2, true, false, false>(&bytes, &own);
    assert_ne!(mixed, v2::rapidhash_v2_inline::<2, false, false, false>(&bytes, &own));
    assert_eq!(mixed, v2::rapidhash_v2_2_seeded(&bytes, &own));
}

/// The types have the traits of the crate's.
#[test]
fn traits() {
    fn of<T: Copy + std::fmt::Debug + Eq + std::hash::Hash>() {}
    fn ordered<T: Ord>() {}
    of::<v1::RapidSecrets>();
    of::<v2::RapidSecrets>();
    of::<v3::RapidSecrets>();
    of::<RapidRng>();
    ordered::<RapidRng>();
}

#[test]
fn maps_by_the_names_of_fast() {
    let _: inner::SeedableState<true, true> = quality::SeedableState::fixed();
    let _: rapidhash::RapidHashMap<u8, u8> = RapidHashMap::default();
    let (mut map, mut set) = (RapidHashMap::new(), RapidHashSet::with_capacity(9));
    map.insert("answer", 42);
    assert!(set.insert("answer") && map["answer"] == 42 && set.capacity() >= 9);
}

/// The maps of other crates, over each state.
#[test]
fn maps_of_other_crates() {
    fn check<S: BuildHasher + Clone + Default>(state: &S) {
        let mut table = hashbrown::HashMap::with_hasher(state.clone());
        let mut ordered = indexmap::IndexMap::with_hasher(state.clone());
        for number in 0..20_000u64 {
            table.insert(number, !number);
            ordered.insert(format!("key {number}"), number);
        }
        for number in 0..20_000u64 {
            assert_eq!(table.get(&number), Some(&!number));
            assert_eq!(ordered[&format!("key {number}")], number);
            assert!(!table.contains_key(&(number + 20_000)));
        }
        assert!(ordered.values().copied().eq(0..20_000));
    }
    check(&fast::RandomState::new());
    check(&fast::GlobalState::new());
    check(&quality::RandomState::new());
    check(&fast::SeedableState::random());
}
