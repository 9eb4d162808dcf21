// Made by scripts/rust_crate from crates/rapidsum/src/algorithm.rt: change that file.

//! Which hash a file has: the version and the seed.
#![allow(clippy::manual_find)]

use rapidhash_tool::kit::Vec;
use rapidhash_tool::form::Version;
use rapidhash_tool::kit::kernel::{MIXED, NOT_COMPACT, PLAIN};
use rapidhash::v1::{rapidhash_v1_file_seeded, rapidhash_v1_seeded};
use rapidhash::v2::{rapidhash_v2_file_inline, rapidhash_v2_inline};
use rapidhash::v3::rapidhash_v3_file_lanes;
use rapidhash::{v1, v3};
use rapidhash_tool::kit::alloc::Allocator;
use std::io;
use std::io::{Error, ErrorKind, Read};

/// How many bytes are read from a file at once, into a buffer on the stack.
const PIECE: usize = 65536;

/// V1 and V2 read longer files of a known length in pieces. A file of /proc or /sys may have fewer
/// bytes than its length, which is always below this.
const WHOLE: u64 = 65536;

/// Returns the version with a name.
pub fn version_named(name: &[u8]) -> Option<Version> {
    for version in Version::all() {
        if version.name().as_bytes() == name {
            return Some(version);
        }
    }
    None
}

/// A version, and the word from which its seed is derived instead of the default word.
#[derive(Clone, Copy)]
pub struct Algorithm {
    pub version: Version,
    pub seed: Option<u64>,
}

impl Algorithm {
    /// Returns the hash of all bytes of a reader. If the length is known, V1 and V2 keep at most
    /// 64 KiB of them in memory, and otherwise all.
    pub fn hash<A: Allocator + Copy, R: Read>(
        self,
        alloc: A,
        reader: R,
        length: Option<u64>,
    ) -> io::Result<u64> {
        let seed = self.seed;
        match self.version {
            Version::V1 => hash_v1(alloc, reader, length, seed),
            Version::V2Minor0 => hash_v2::<0, A, R>(alloc, reader, length, seed),
            Version::V2Minor1 => hash_v2::<1, A, R>(alloc, reader, length, seed),
            Version::V2Minor2 => hash_v2::<2, A, R>(alloc, reader, length, seed),
            Version::V3 => hash_v3::<7, R>(reader, seed),
            Version::V3Micro => hash_v3::<5, R>(reader, seed),
            Version::V3Nano => hash_v3::<3, R>(reader, seed),
        }
    }
}

// All bytes of a reader.
fn read_whole<A: Allocator, R: Read>(alloc: A, reader: R) -> io::Result<Vec<u8, A>> {
    let mut reader = reader;
    let mut whole = Vec::new(alloc);
    rapidhash_tool::kit::read_to_end(&mut reader, &mut whole)?;
    Ok(whole)
}

// Refuses a reader that has bytes left.
fn expect_end<A: Allocator, R: Read>(alloc: A, reader: R) -> io::Result<()> {
    if read_whole(alloc, reader.take(1))?.is_empty() {
        return Ok(());
    }
    let message = "the file grew while it was read";
    Err(Error::new(ErrorKind::InvalidData, message))
}

// The seed and secrets of V1.
fn secrets_of_v1(seed: Option<u64>) -> v1::RapidSecrets {
    match seed {
        None => *v1::RapidSecrets::default_ref(),
        Some(word) => v1::RapidSecrets::seed_cpp(word),
    }
}

fn hash_v1<A: Allocator + Copy, R: Read>(
    alloc: A,
    reader: R,
    length: Option<u64>,
    seed: Option<u64>,
) -> io::Result<u64> {
    let (mut reader, secrets) = (reader, secrets_of_v1(seed));
    match length {
        Some(length) if length > WHOLE => {
            let hash = rapidhash_v1_file_seeded(&mut reader, length, &secrets)?;
            expect_end(alloc, reader)?;
            Ok(hash)
        }
        _ => Ok(rapidhash_v1_seeded(
            read_whole(alloc, reader)?.as_slice(),
            &secrets,
        )),
    }
}

// The seed and secrets of V2 and V3.
fn secrets_of(seed: Option<u64>) -> v3::RapidSecrets {
    match seed {
        None => *v3::RapidSecrets::default_ref(),
        Some(word) => v3::RapidSecrets::seed_cpp(word),
    }
}

fn hash_v2<const MINOR: u8, A: Allocator + Copy, R: Read>(
    alloc: A,
    reader: R,
    length: Option<u64>,
    seed: Option<u64>,
) -> io::Result<u64> {
    let (mut reader, secrets) = (reader, secrets_of(seed));
    match length {
        Some(length) if length > WHOLE => {
            let hash = rapidhash_v2_file_inline::<R, MINOR, PLAIN>(&mut reader, length, &secrets)?;
            expect_end(alloc, reader)?;
            Ok(hash)
        }
        _ => {
            let bytes = read_whole(alloc, reader)?;
            let bytes = bytes.as_slice();
            Ok(rapidhash_v2_inline::<MINOR, MIXED, NOT_COMPACT, PLAIN>(
                bytes, &secrets,
            ))
        }
    }
}

fn hash_v3<const LANES: usize, R: Read>(reader: R, seed: Option<u64>) -> io::Result<u64> {
    rapidhash_v3_file_lanes::<R, LANES, PIECE, PLAIN>(reader, &secrets_of(seed))
}
