//! Tests keys with the traits of std. The expected hashes are those of the crate, version 4.5.1.

use rapidhash::{fast, quality};
use std::hash::{BuildHasher, Hash, Hasher};

/// Whether slices of wider integers have the expected hashes: std passes their in-memory bytes.
const LITTLE_ENDIAN: bool = cfg!(target_endian = "little");

#[derive(Hash)]
enum Kind {
    Plain,
    Pair(u8, i16),
    Named { name: String, tags: Vec<u32>, wide: i128 },
}

#[derive(Hash)]
struct Key {
    id: u64,
    kind: Kind,
    flag: bool,
    letter: char,
    offset: Option<isize>,
    numbers: (i8, u16, i32, u128),
    bytes: [u8; 5],
}

fn key(number: u8, kind: Kind, offset: Option<isize>) -> Key {
    Key {
        id: u64::from(number).wrapping_mul(0x9e37_79b9_7f4a_7c15),
        kind,
        flag: number % 2 == 0,
        letter: 'λ',
        offset,
        numbers: (-1, 2, -3, 4),
        bytes: [1, 2, 3, 4, number],
    }
}

/// Returns the hashes of a key with the fixed states of `fast` and `quality`.
fn hashes<T: Hash + ?Sized>(key: &T) -> (u64, u64) {
    let mut fast = fast::SeedableState::fixed().build_hasher();
    let mut quality = quality::SeedableState::fixed().build_hasher();
    key.hash(&mut fast);
    key.hash(&mut quality);
    (fast.finish(), quality.finish())
}

#[test]
fn derived_keys() {
    let plain = key(0, Kind::Plain, None);
    assert_eq!(hashes(&plain), (12897164979441356047, 16779014412953333066));
    let pair = key(1, Kind::Pair(1, -1), Some(-1));
    assert_eq!(hashes(&pair), (3121766663117925470, 972828044404782362));
    let named = Kind::Named { name: "nn".to_owned(), tags: vec![0, 1], wide: -2 };
    let named = key(2, named, Some(-2));
    let known = (7533125613894166309, 9222927566033123518);
    assert_eq!(hashes(&named) == known, LITTLE_ENDIAN);
}

#[test]
fn plain_keys() {
    assert_eq!(hashes("hello"), (4470728437428163729, 11433842339275487407));
    assert_eq!(hashes(&4711u32), (9601639254778723943, 13637543073516011895));
    assert_eq!(hashes(b"hello world"), (11339569883731722945, 3348275917668072623));
    let tuple = (7u8, -1i16, "key", [1u64, 2, 3]);
    let known = (15687909503537828233, 15552875111850562695);
    assert_eq!(hashes(&tuple) == known, LITTLE_ENDIAN);
}

/// The trait's integer writes reach the sponge: two in a block equal a write of the joined integer.
#[test]
fn integers_of_the_trait_are_packed() {
    let (mut parts, mut whole) = (fast::RapidHasher::default(), fast::RapidHasher::default());
    for value in [2u8, 1] {
        value.hash(&mut parts);
    }
    258u16.hash(&mut whole);
    assert_eq!(parts.finish(), whole.finish());
}

/// Integers wait while bytes are absorbed, so their order leaves no trace: a text ends with the byte 255.
#[test]
fn integers_before_and_after_bytes() {
    let state = fast::SeedableState::fixed();
    let (mut before, mut after) = (state.build_hasher(), state.build_hasher());
    before.write_u8(1);
    before.write(b"x");
    after.write(b"x");
    after.write_u8(1);
    assert_eq!(before.finish(), after.finish());
    let of = |key: &dyn Fn(&mut fast::RapidHasher<'static>)| {
        let mut hasher = state.build_hasher();
        key(&mut hasher);
        hasher.finish()
    };
    let texts = [of(&|it| (255u8, "x").hash(it)), of(&|it| ("x", 255u8).hash(it))];
    assert_eq!(texts[0], texts[1]);
    let texts = [of(&|it| (1u8, "x").hash(it)), of(&|it| ("x", 1u8).hash(it))];
    assert_ne!(texts[0], texts[1]);
}
