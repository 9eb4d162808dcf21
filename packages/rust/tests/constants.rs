//! Compares hashes in constants with those at run time, which other tests compare with the vectors of the crate. Before
//! Rust 1.83, no hash is a constant, and this file is empty.
#![cfg(not(rapidhash_old_const))]

use rapidhash::{v1, v2, v3};

const COUNT: usize = 401;

/// The messages of a row: `length` bytes from the start of these.
const BYTES: [u8; COUNT] = {
    let (mut bytes, mut at) = ([0; COUNT], 0);
    while at < COUNT {
        bytes[at] = (at * at + 7 * at) as u8;
        at += 1;
    }
    bytes
};

const THREE: v1::RapidSecrets = v1::RapidSecrets::seed(1 << 40);
const SEVEN: v3::RapidSecrets = v3::RapidSecrets::seed(1 << 40);

/// Tests a hash at every length, in a constant and at run time.
macro_rules! same {
    ($($name:ident: $bytes:ident => $hash:expr;)*) => { $(
        #[test]
        fn $name() {
            const HASHES: [u64; COUNT] = {
                let (mut hashes, mut length) = ([0; COUNT], 0);
                while length < COUNT {
                    let $bytes = BYTES.split_at(length).0;
                    hashes[length] = $hash;
                    length += 1;
                }
                hashes
            };
            for (length, hash) in HASHES.into_iter().enumerate() {
                let $bytes = std::hint::black_box(&BYTES[..length]);
                assert_eq!(hash, $hash, "{length} bytes");
            }
        }
    )* };
}

same! {
    v1_default: bytes => v1::rapidhash_v1(bytes);
    v1_seeded: bytes => v1::rapidhash_v1_seeded(bytes, &THREE);
    v1_inline: bytes => v1::rapidhash_v1_inline::<true, true, true, true>(bytes, &THREE);
    v2_default: bytes => v2::rapidhash_v2_2(bytes);
    v2_seeded: bytes => v2::rapidhash_v2_2_seeded(bytes, &SEVEN);
    v2_inline: bytes => v2::rapidhash_v2_inline::<0, false, false, true>(bytes, &SEVEN);
    v2_1_inline: bytes => v2::rapidhash_v2_inline::<1, true, true, false>(bytes, &SEVEN);
    v3_default: bytes => v3::rapidhash_v3(bytes);
    v3_seeded: bytes => v3::rapidhash_v3_seeded(bytes, &SEVEN);
    v3_inline: bytes => v3::rapidhash_v3_inline::<false, false, true>(bytes, &SEVEN);
    v3_compact: bytes => v3::rapidhash_v3_inline::<true, true, false>(bytes, &SEVEN);
    micro_inline: bytes => v3::rapidhash_v3_micro_inline::<true, false>(bytes, &SEVEN);
    nano_inline: bytes => v3::rapidhash_v3_nano_inline::<true, true>(bytes, &SEVEN);
}

#[test]
fn in_a_pattern_and_a_length() {
    const HELLO: u64 = v3::rapidhash_v3(b"hello");
    let places = [0u8; (HELLO % 64) as usize];
    assert!(matches!(v3::rapidhash_v3(b"hello"), HELLO) && HELLO == 3327445792987248966);
    assert_eq!(places.len() as u64, HELLO % 64);
}
