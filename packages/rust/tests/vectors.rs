//! Tests that the crate has the values of the files of cases, including those of readers, which need
//! std. Also tests that random messages have the same hash whole and in pieces.
#![cfg(feature = "std")]

mod replay;

use std::env;
use std::path::Path;

#[test]
fn every_file_of_cases_is_replayed() {
    let folder = Path::new(env!("CARGO_MANIFEST_DIR")).join("../../crates/test_replay/data");
    assert_eq!(replay::folder(&folder).unwrap(), 2);
}

/// A length without its upper bits would be that of five bytes. The bytes are never written, so they
/// need no memory. The hash is that of upstream.
#[test]
#[cfg(all(target_pointer_width = "64", not(debug_assertions)))]
fn a_message_above_4_gib_has_its_whole_length() {
    use rapidhash::v3::{DEFAULT_RAPID_SECRETS, RapidStream, RapidStreamHasherV3};
    use std::io::Write;

    let zeros = vec![0; (1 << 32) + 5];
    assert_eq!(rapidhash::v3::rapidhash_v3(&zeros), 8938949028826169308);
    let read = rapidhash::v3::rapidhash_v3_file(zeros.as_slice()).unwrap();
    let mut stream = RapidStreamHasherV3::new(&DEFAULT_RAPID_SECRETS);
    let mut lanes = RapidStream::new(7, &DEFAULT_RAPID_SECRETS);
    for writer in [&mut stream as &mut dyn Write, &mut lanes] {
        assert_eq!(writer.write(&zeros).unwrap(), zeros.len());
    }
    for hash in [read, stream.finish(), lanes.finish()] {
        assert_eq!(hash, 8938949028826169308);
    }
}

/// There are ten thousand messages, or a million if the environment variable `MESSAGES` is set. Both
/// checksums are those of the crate rapidhash 4.5.1.
#[test]
fn random_messages_have_the_checksums_of_the_crate() {
    let (count, wanted) = match env::var_os("MESSAGES") {
        None => (10_000, 0x0566_8d6b_81ca_507d),
        Some(_) => (1_000_000, 0xd6c1_e773_56fc_7486),
    };
    assert_eq!(replay::messages::checksum(count).unwrap(), wanted);
}
