//! Tests what Rust users expect besides hashes: writers, maps, copies, and panics with a message.
#![cfg(feature = "std")]

use rapidhash::rng::{RapidRng, rapidrng_time};
use rapidhash::v3::{DEFAULT_RAPID_SECRETS, RapidSecrets, rapidhash_v3, rapidhash_v3_seeded};
use rapidhash::v3::{RapidStream, RapidStreamHasherInlineMicro, RapidStreamHasherV3};
use rapidhash::{HashMapExt, HashSetExt, RapidHashMap, RapidHashSet};
use rapidhash::{fast, inner, quality, shards, util, v1, v2, v3};
use std::io::{Read, Write, copy};
use std::sync::Mutex;
use std::thread;
use std::time::Duration;

/// Compiles only if each short name is the type with these options. No value shows the option COMPACT.
#[test]
fn options_of_the_short_names() {
    macro_rules! same {
        ($($short:ty = $full:ty;)*) => { $(let _: fn($short) -> $full = |it| it;)* };
    }
    same! {
        fast::RapidHasher<'_> = inner::RapidHasher<'_, false, true, false, false>;
        fast::RandomState = inner::RandomState<false, true, false, false>;
        fast::SeedableState<'_> = inner::SeedableState<'_, false, true, false, false>;
        fast::GlobalState = inner::GlobalState<false, true, false, false>;
        quality::RapidHasher<'_> = inner::RapidHasher<'_, true, true, false, false>;
        quality::RandomState = inner::RandomState<true, true, false, false>;
        quality::SeedableState<'_> = inner::SeedableState<'_, true, true, false, false>;
        quality::GlobalState = inner::GlobalState<true, true, false, false>;
    }
}

#[test]
fn streams_are_writers() {
    let bytes: Vec<u8> = (0..20_000u32).map(|place| (place % 251) as u8).collect();
    let mut stream = RapidStreamHasherV3::new(&DEFAULT_RAPID_SECRETS);
    assert_eq!(copy(&mut bytes.as_slice(), &mut stream).unwrap(), 20_000);
    write!(stream, "{}", 4711).unwrap();
    stream.flush().unwrap();
    let mut by_lanes = RapidStream::new(7, &DEFAULT_RAPID_SECRETS);
    assert_eq!(copy(&mut bytes.as_slice(), &mut by_lanes).unwrap(), 20_000);
    by_lanes.write_all(b"4711").unwrap();
    by_lanes.flush().unwrap();
    let whole = [bytes.as_slice(), b"4711"].concat();
    assert_eq!(stream.finish(), rapidhash_v3(&whole));
    assert_eq!(by_lanes.finish(), rapidhash_v3(&whole));
}

#[test]
fn a_copy_of_a_stream_goes_on_alone() {
    let mut stream = RapidStreamHasherV3::new(&DEFAULT_RAPID_SECRETS);
    stream.write(b"hel");
    let mut copy = stream.clone();
    stream.write(b"lo");
    copy.write(b"p");
    assert_eq!(stream.finish(), rapidhash_v3(b"hello"));
    assert_eq!(copy.finish(), rapidhash_v3(b"help"));
}

/// A stream may outlive the secrets that it was made of, in another thread too.
#[test]
fn streams_own_their_secrets_in_threads() {
    static SHARED: Mutex<RapidStreamHasherV3> = Mutex::new(RapidStreamHasherV3::DEFAULT);
    struct Upload {
        hash: RapidStreamHasherV3<'static>,
    }
    let number = 0x1234_5678;
    let mut upload = Upload { hash: RapidStreamHasherV3::new(&RapidSecrets::seed(number)) };
    upload.hash.write(b"hel");
    let hash = thread::spawn(move || {
        upload.hash.write(b"lo");
        upload.hash.finish()
    });
    let secrets = RapidSecrets::seed(number);
    assert_eq!(hash.join().unwrap(), rapidhash_v3_seeded(b"hello", &secrets));
    SHARED.lock().unwrap().write(b"hello");
    assert_eq!(SHARED.lock().unwrap().finish(), rapidhash_v3(b"hello"));
    let mut micro = RapidStreamHasherInlineMicro::<true, true>::default();
    micro.write(b"hello");
    let protected = v3::rapidhash_v3_micro_inline::<true, true>(b"hello", &DEFAULT_RAPID_SECRETS);
    assert_eq!(micro.finish(), protected);
}

#[test]
fn debug_shows_no_secret_and_no_message() {
    let secrets = RapidSecrets::seed(1);
    let mut stream = RapidStreamHasherV3::new(&secrets);
    stream.write(b"password");
    let global = inner::GlobalSecrets::new(1);
    for (shown, name) in [
        (format!("{stream:?}"), "RapidStreamHasherV3"),
        (format!("{:?}", RapidStreamHasherInlineMicro::<true, false>::new(&secrets)), "RapidStreamHasherInlineMicro"),
        (format!("{:?}", RapidStream::new(7, &secrets)), "RapidStream"),
        (format!("{secrets:?}"), "RapidSecrets"),
        (format!("{:?}", v1::RapidSecrets::seed(1)), "RapidSecrets"),
        (format!("{global:?}"), "GlobalSecrets"),
        (format!("{:?}", inner::SeedSource::new(&global, 2)), "SeedSource"),
        (format!("{:?}", fast::RapidHasher::new(3)), "RapidHasher"),
        (format!("{:?}", quality::SeedableState::new(4)), "SeedableState"),
    ] {
        assert_eq!(shown, format!("{name} {{ .. }}"));
    }
}

/// Every version reads from a reader whose type is not known.
#[test]
fn readers_without_a_type() -> std::io::Result<()> {
    let mut bytes = b"hellohellohello".as_slice();
    let reader: &mut dyn Read = &mut bytes;
    assert_eq!(v1::rapidhash_v1_file(reader, 5)?, v1::rapidhash_v1(b"hello"));
    assert_eq!(v2::rapidhash_v2_2_file(reader, 5)?, v2::rapidhash_v2_2(b"hello"));
    assert_eq!(v3::rapidhash_v3_file(reader)?, rapidhash_v3(b"hello"));
    Ok(())
}

/// A map in a static, whose keys nobody else chooses.
#[test]
fn a_map_in_a_static() {
    static SIZES: Mutex<Option<RapidHashMap<&str, u64>>> = Mutex::new(None);
    const STATE: fast::SeedableState<'static> = fast::SeedableState::fixed();
    const GENERATOR: RapidRng = RapidRng::new(42);
    SIZES.lock().unwrap().get_or_insert_with(RapidHashMap::new).insert("a", 1);
    assert_eq!(SIZES.lock().unwrap().as_ref().unwrap()["a"], 1);
    assert!(STATE == fast::SeedableState::fixed());
    assert_eq!(GENERATOR, RapidRng::new(42));
}

/// A single write is larger than every buffer inside, and its parts differ.
#[test]
fn a_large_write() {
    let message: Vec<u8> = (0..2_000_003u32).map(|at| (at.wrapping_mul(at) >> 5) as u8).collect();
    let mut stream = RapidStreamHasherV3::new(&DEFAULT_RAPID_SECRETS);
    assert_eq!(Write::write(&mut stream, &message).unwrap(), message.len());
    assert_eq!(stream.finish(), rapidhash_v3(&message));
    let mut lanes = RapidStream::new(7, &DEFAULT_RAPID_SECRETS);
    assert_eq!(Write::write(&mut lanes, &message).unwrap(), message.len());
    assert_eq!(lanes.finish(), rapidhash_v3(&message));
}

#[test]
fn maps_and_sets() {
    let mut map = RapidHashMap::default();
    assert_eq!(map.insert("key", "value"), None);
    assert_eq!((map.get("key"), map.get("na")), (Some(&"value"), None));
    let mut map: RapidHashMap<u64, u64> = RapidHashMap::with_capacity(100);
    assert!(map.capacity() >= 100);
    map.extend((0..100).map(|number| (number, number * number)));
    assert!((0..100).all(|number| map[&number] == number * number));
    let mut set: RapidHashSet<String> = HashSetExt::with_capacity(10);
    assert!(set.capacity() >= 10 && set.insert("value".to_owned()) && !set.insert("value".to_owned()));
    // Both have the room of std's, and no more.
    for capacity in [0, 1, 3, 4, 100, 1000, 100_000] {
        let room = std::collections::HashMap::<u64, u64>::with_capacity(capacity).capacity();
        let map: RapidHashMap<u64, u64> = RapidHashMap::with_capacity(capacity);
        let set: RapidHashSet<u64> = RapidHashSet::with_capacity(capacity);
        assert_eq!((map.capacity(), set.capacity()), (room, room));
    }
    let empty: (RapidHashMap<u8, u8>, RapidHashSet<u8>) = (HashMapExt::new(), HashSetExt::new());
    assert_eq!((empty.0.capacity(), empty.1.capacity()), (0, 0));
}

/// No machine has memory for so many entries. The lower 32 bits of a capacity of 64 bits are 0.
#[test]
#[should_panic(expected = "capacity overflow")]
fn a_map_of_too_many_entries() {
    let _: RapidHashMap<u64, u64> = HashMapExt::with_capacity(usize::MAX / 16 + 1);
}

#[test]
#[should_panic(expected = "capacity overflow")]
fn a_set_of_too_many_keys() {
    let _: RapidHashSet<[u64; 2]> = HashSetExt::with_capacity(usize::MAX / 16 + 1);
}

#[test]
fn a_generator_from_a_moment() {
    let mut seed = 0xbdd8_9aa9_8270_4029;
    let state = rapidrng_time(&mut seed, 1_700_000_000, 123_456_789);
    let made = RapidRng::from_moment(Duration::new(1_700_000_000, 123_456_789));
    assert_eq!(made, RapidRng::new(state));
}

#[test]
fn generators_start_at_random() {
    assert_ne!(RapidRng::default(), RapidRng::default());
}

#[test]
#[should_panic(expected = "the lanes must be 7, 5 or 3")]
fn four_lanes_as_a_value() {
    let _ = RapidStream::new(4, &DEFAULT_RAPID_SECRETS);
}

#[test]
#[should_panic(expected = "the nanoseconds must be less than a second")]
fn a_second_of_nanoseconds() {
    rapidrng_time(&mut 42, 0, 1_000_000_000);
}

#[test]
#[should_panic]
fn a_read_past_the_end() {
    let _ = util::read_u64(&[0; 8], 1);
}

#[test]
#[should_panic = "the count must be at least 1"]
fn no_shards() {
    let _ = shards::shard(7, 0);
}

#[test]
#[should_panic = "the shard must be below the count"]
fn a_shard_too_many() {
    let _ = shards::first_hash(10, 10);
}

#[test]
#[should_panic = "the count must be at least 1"]
fn no_buckets() {
    let _ = shards::bucket(7, 0);
}
