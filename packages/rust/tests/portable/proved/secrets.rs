// Made by scripts/rust_crate from crates/test_portable/src/secrets.rt: change that file.

//! Secrets and seeds of random words.

use rapidhash::fast;
use rapidhash::inner::{GlobalSecrets, SeedSource};
use rapidhash::{v1, v3};
use std::hash::{BuildHasher, Hash, Hasher};

/// The default secrets among the random words here make secrets that need a repair.
const WORDS: [u64; 6] = [0, 1, 4711, u64::MAX, 0x2d35_8dcc_aa6c_78a5, 0x4b33_a62e_d433_d4a3];

/// Two calls on one value return the same secrets.
#[test]
fn test_get_secrets() {
    for word in WORDS {
        let global = GlobalSecrets::new(word);
        let secrets = *global.get();
        assert!(global.get() == &secrets, "{word}");
    }
}

/// Two calls on one value return the same seed.
#[test]
fn test_get_global_seed() {
    for word in WORDS {
        let global = GlobalSecrets::new(word);
        let seed = global.get_global_seed();
        assert!(global.get_global_seed() == seed, "{word}");
    }
}

/// Whether a word has a set bit in its upper 16 bits, in the 16 bits from bit 24 on, and in its
/// lower 16 bits.
fn has_bits_in_each_part(word: u64) -> bool {
    word & 0xffff_0000_0000_0000 != 0 && word & 0x0000_00ff_ff00_0000 != 0 && word & 0xffff != 0
}

/// One random word makes the same secrets twice, the next word makes others, and each secret has
/// bits in its three parts.
#[test]
fn test_create_secrets() {
    for word in WORDS {
        let secrets = *GlobalSecrets::new(word).get();
        assert!(*GlobalSecrets::new(word).get() == secrets, "{word}");
        let next = GlobalSecrets::new(word.wrapping_add(1));
        assert!(*next.get() != secrets, "{word}");
        assert!(secrets.iter().all(|secret| has_bits_in_each_part(*secret)), "{word}");
    }
}

/// The hash of a value as the key of a map.
fn hashed<T: Hash>(value: &T) -> u64 {
    let mut hasher = fast::SeedableState::fixed().build_hasher();
    value.hash(&mut hasher);
    hasher.finish()
}

/// Secrets of V1 without one part: the seed, or one of the secrets.
fn without_a_part_of_three(secrets: v1::RapidSecrets) -> [v1::RapidSecrets; 4] {
    let mut all = [secrets; 4];
    all[3].seed = 0;
    for place in 0..3usize {
        all[place].secrets[place] = 0;
    }
    all
}

/// The same of V2 and V3.
fn without_a_part_of_seven(secrets: v3::RapidSecrets) -> [v3::RapidSecrets; 8] {
    let mut all = [secrets; 8];
    all[7].seed = 0;
    for place in 0..7usize {
        all[place].secrets[place] = 0;
    }
    all
}

/// Secrets are equal, and the same key of a map, exactly if all of their parts are.
#[test]
fn secrets_are_equal_by_each_part() {
    let three = v1::RapidSecrets::seed(4711);
    let again = v1::RapidSecrets::seed(4711);
    assert!(again == three && hashed(&again) == hashed(&three));
    for other in without_a_part_of_three(three) {
        assert!(other != three && hashed(&other) != hashed(&three), "{other:?}");
    }
    let seven = v3::RapidSecrets::seed(4711);
    let again = v3::RapidSecrets::seed(4711);
    assert!(again == seven && hashed(&again) == hashed(&seven));
    for other in without_a_part_of_seven(seven) {
        assert!(other != seven && hashed(&other) != hashed(&seven), "{other:?}");
    }
}

/// Two random words make secrets that are not equal, and one word makes equal ones.
#[test]
fn made_secrets_are_equal_by_their_word() {
    let global = GlobalSecrets::new(4711);
    assert!(global == GlobalSecrets::new(4711));
    assert!(global != GlobalSecrets::new(4712));
}

/// A counter that is 0 goes on like any other. This second random word starts the counter there,
/// whatever the seed. The expected values come from an independent program.
#[test]
fn a_seed_source_goes_on_from_0() {
    for word in WORDS {
        let mut source = SeedSource::new(&GlobalSecrets::new(word), 0x4d5a_2da5_1de1_aa46);
        assert!(source.next() == 9454793320884447470);
        assert!(source.next() == 639202169605739871);
        assert!(source.next() == 6862678675849103174);
    }
}
