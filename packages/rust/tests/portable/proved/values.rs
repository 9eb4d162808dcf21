// Made by scripts/rust_crate from crates/test_portable/src/values.rt: change that file.

//! Known values that no data file has: reads, products, secrets, hashes with default secrets.

use rapidhash::inner::{GlobalSecrets, SeedSource};
use rapidhash::util::{rapid_mix, rapid_mum, read_u32, read_u32_combined, read_u64};
use rapidhash::{v1, v2, v3};

/// The first default secret.
const S0: u64 = 0x2d35_8dcc_aa6c_78a5;

/// The second.
const S1: u64 = 0x8bb8_4b93_962e_acc9;

/// The third.
const S2: u64 = 0x4b33_a62e_d433_d4a3;

/// The fourth.
const S3: u64 = 0x4d5a_2da5_1de1_aa47;

/// The fifth.
const S4: u64 = 0xa076_1d64_78bd_642f;

#[test]
fn test_rapid_mum() {
    assert!(rapid_mum::<false>(0, 0) == (0, 0));
    assert!(rapid_mum::<false>(100, 100) == (10000, 0));
    assert!(rapid_mum::<false>(u64::MAX, 2) == (u64::MAX - 1, 1));
    assert!(rapid_mum::<true>(u64::MAX, 2) == (1, 3));
    assert!(rapid_mix::<false>(u64::MAX, 2) == u64::MAX);
}

#[test]
fn test_read_u32() {
    assert!(read_u32(&[23, 145, 3, 34], 0) == 570659095);
    assert!(read_u32(&[24, 54, 3, 23, 145, 3, 34], 3) == 570659095);
    assert!(read_u32(&[0, 10, 0, 0], 0) == 2560);
    assert!(read_u32_combined(&[1, 0, 0, 0, 2, 0, 0, 0], 4, 0) == 0x2_0000_0001);
}

#[test]
fn test_read_u64() {
    let bytes = [1, 2, 3, 23, 145, 3, 34, 0, 0, 0, 0, 0, 0, 0];
    assert!(read_u64(&bytes, 3) == 570659095);
    assert!(read_u64(&bytes[3..], 0) == 570659095);
}

/// The offset of the second word of 4 to 16 bytes in V1: 0 up to 7 bytes, 4 from 8 on.
#[test]
fn test_u32_to_u128_delta() {
    for n in 4..17u32 {
        let delta = if n < 8 { 0 } else { 4 };
        assert!((n & 24) >> (n >> 3) == delta, "{n}");
    }
}

#[test]
fn default_secrets_are_those_of_the_cpp_seed() {
    let first = v1::RapidSecrets::seed_cpp(0xbdd8_9aa9_8270_4029);
    assert!(v1::DEFAULT_RAPID_SECRETS == first);
    assert!(*v1::RapidSecrets::default_ref() == first);
    assert!(v2::DEFAULT_RAPID_SECRETS == v2::RapidSecrets::seed_cpp(0));
    assert!(v3::DEFAULT_RAPID_SECRETS == v3::RapidSecrets::seed_cpp(0));
    assert!(*v3::RapidSecrets::default_ref() == v3::RapidSecrets::seed_cpp(0));
}

/// The third default secret premixes to itself, with every other.
#[test]
fn a_seed_that_stays() {
    let three = v1::RapidSecrets::seed(S2);
    assert!((three.seed, three.secrets) == (S2, [S2; 3]));
    assert!(three.reseed() == three);
    let seven = v2::RapidSecrets::seed(S2);
    assert!((seven.seed, seven.secrets) == (S2, [S2; 7]));
    assert!(seven.reseed() == seven);
    assert!(v3::RapidSecrets::seed_cpp(S2).seed == S2);
    assert!(v1::RapidSecrets::seed_cpp(S0).seed == S0);
}

#[test]
fn made_secrets_repair_each_part() {
    let first = GlobalSecrets::new(S0);
    assert!(first.get_global_seed() == 0);
    assert!(first.get()[0] == 0x8000_0000_8000_0001);
    assert!(GlobalSecrets::new(S2).get()[2] == 0x8000_0000_8000_0001);
}

#[test]
fn a_seed_source_counts_on() {
    let mut source = SeedSource::new(&GlobalSecrets::new(S0), S1);
    let first = rapid_mix::<false>(S1.wrapping_add(1) ^ S3, S4).wrapping_add(S0);
    assert!(source.next() == first);
    assert!(source.next() == first.wrapping_add(S0));
}

#[test]
fn hashes_with_default_secrets() {
    assert!(v1::rapidhash_v1(b"something\n") == 15965596575264898037);
    assert!(v1::rapidhash_v1_seeded(b"\n", &v1::DEFAULT_RAPID_SECRETS) == 5006746792674864303);
    assert!(v2::rapidhash_v2_2(&[]) == 232177599295442350);
    assert!(v2::rapidhash_v2_2_seeded(&[], &v2::DEFAULT_RAPID_SECRETS) == 232177599295442350);
    assert!(v3::rapidhash_v3(&[]) == 232177599295442350);
    assert!(v3::rapidhash_v3_seeded(&[], &v3::DEFAULT_RAPID_SECRETS) == 232177599295442350);
}
