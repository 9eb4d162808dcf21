// Made by scripts/rust_crate from crates/rapidhash_tool/src/hashes.rt: change that file.

//! The hash by each version, and how the bytes are read.

use rapidhash_tool::kit::Vec;
use crate::faults::CliFault;
use crate::version::{Minor, RapidhashVersion};
use rapidhash_tool::kit::kernel::{GUARDED, MIXED, NOT_COMPACT, PLAIN};
use rapidhash::v1::{rapidhash_v1_file_inline, rapidhash_v1_inline};
use rapidhash::v2::{rapidhash_v2_file_inline, rapidhash_v2_inline};
use rapidhash::v3::rapidhash_v3_file_lanes;
use rapidhash::{v1, v2, v3};
use rapidhash_tool::kit::alloc::{AllocError, Allocator};
use std::io;
use std::io::Read;

// The bytes that a read requests: the capacity of a Linux pipe.
const PIECE: usize = 65536;

impl RapidhashVersion {
    /// Returns the hash of a reader's remaining bytes, with the version's default seed and secrets.
    ///
    /// V1 and V2 keep all bytes in memory, the others none. An interrupted read is
    /// [`CliFault::Stdin`]. So is a reader that has no end: the call gives up after 2^64 - 1 reads
    /// that returned bytes.
    pub fn hash_stdin<A: Allocator, R: Read>(&self, alloc: A, input: R) -> Result<u64, CliFault> {
        let mut input = input;
        let streamed = match *self {
            RapidhashVersion::V1 { protected } => {
                let bytes = read_whole(alloc, &mut input)?;
                return Ok(hash_v1(protected, bytes.as_slice()));
            }
            RapidhashVersion::V2 { protected, version } => {
                let bytes = read_whole(alloc, &mut input)?;
                return Ok(hash_v2(version, protected, bytes.as_slice()));
            }
            RapidhashVersion::V3 { protected } => hash_v3::<R, 7>(protected, input),
            RapidhashVersion::V3Micro { protected } => hash_v3::<R, 5>(protected, input),
            RapidhashVersion::V3Nano { protected } => hash_v3::<R, 3>(protected, input),
        };
        streamed.map_err(|_| CliFault::Stdin)
    }

    /// Returns the hash of a file's bytes, with the version's default seed and secrets. It
    /// allocates nothing.
    ///
    /// V1 and V2 hash the first `len` bytes, and read no further. The others hash all bytes and
    /// ignore `len`.
    ///
    /// The only error is [`CliFault::File`]: a read failed or was interrupted; for V1 and V2, the
    /// reader had fewer than `len` bytes; for the others, it has no end.
    pub fn hash_file<R: Read>(&self, reader: R, len: u64) -> Result<u64, CliFault> {
        let mut reader = reader;
        let hash = match *self {
            RapidhashVersion::V1 { protected } => hash_v1_file(protected, &mut reader, len),
            RapidhashVersion::V2 { protected, version } => {
                hash_v2_file(version, protected, &mut reader, len)
            }
            RapidhashVersion::V3 { protected } => hash_v3::<R, 7>(protected, reader),
            RapidhashVersion::V3Micro { protected } => hash_v3::<R, 5>(protected, reader),
            RapidhashVersion::V3Nano { protected } => hash_v3::<R, 3>(protected, reader),
        };
        hash.map_err(|_| CliFault::File)
    }
}

// Returns V1 of a slice.
fn hash_v1(protected: bool, bytes: &[u8]) -> u64 {
    let secrets = v1::RapidSecrets::default_ref();
    if protected {
        rapidhash_v1_inline::<MIXED, NOT_COMPACT, GUARDED, false>(bytes, secrets)
    } else {
        rapidhash_v1_inline::<MIXED, NOT_COMPACT, PLAIN, false>(bytes, secrets)
    }
}

// Returns V2 of a slice.
fn hash_v2(version: Minor, protected: bool, bytes: &[u8]) -> u64 {
    let secrets = v2::RapidSecrets::default_ref();
    match (version, protected) {
        (Minor::M0, false) => rapidhash_v2_inline::<0, MIXED, NOT_COMPACT, PLAIN>(bytes, secrets),
        (Minor::M0, true) => rapidhash_v2_inline::<0, MIXED, NOT_COMPACT, GUARDED>(bytes, secrets),
        (Minor::M1, false) => rapidhash_v2_inline::<1, MIXED, NOT_COMPACT, PLAIN>(bytes, secrets),
        (Minor::M1, true) => rapidhash_v2_inline::<1, MIXED, NOT_COMPACT, GUARDED>(bytes, secrets),
        (Minor::M2, false) => rapidhash_v2_inline::<2, MIXED, NOT_COMPACT, PLAIN>(bytes, secrets),
        (Minor::M2, true) => rapidhash_v2_inline::<2, MIXED, NOT_COMPACT, GUARDED>(bytes, secrets),
    }
}

// Returns V1 of a reader's first `len` bytes.
fn hash_v1_file<R: Read>(protected: bool, reader: &mut R, len: u64) -> io::Result<u64> {
    let secrets = v1::RapidSecrets::default_ref();
    if protected {
        rapidhash_v1_file_inline::<R, GUARDED>(reader, len, secrets)
    } else {
        rapidhash_v1_file_inline::<R, PLAIN>(reader, len, secrets)
    }
}

// Returns V2 of a reader's first `len` bytes.
fn hash_v2_file<R: Read>(
    version: Minor,
    protected: bool,
    reader: &mut R,
    len: u64,
) -> io::Result<u64> {
    let secrets = v2::RapidSecrets::default_ref();
    match (version, protected) {
        (Minor::M0, false) => rapidhash_v2_file_inline::<R, 0, PLAIN>(reader, len, secrets),
        (Minor::M0, true) => rapidhash_v2_file_inline::<R, 0, GUARDED>(reader, len, secrets),
        (Minor::M1, false) => rapidhash_v2_file_inline::<R, 1, PLAIN>(reader, len, secrets),
        (Minor::M1, true) => rapidhash_v2_file_inline::<R, 1, GUARDED>(reader, len, secrets),
        (Minor::M2, false) => rapidhash_v2_file_inline::<R, 2, PLAIN>(reader, len, secrets),
        (Minor::M2, true) => rapidhash_v2_file_inline::<R, 2, GUARDED>(reader, len, secrets),
    }
}

// Returns V3, micro or nano of a reader's remaining bytes. It allocates nothing.
fn hash_v3<R: Read, const LANES: usize>(protected: bool, reader: R) -> io::Result<u64> {
    let secrets = v3::RapidSecrets::default_ref();
    if protected {
        rapidhash_v3_file_lanes::<R, LANES, PIECE, GUARDED>(reader, secrets)
    } else {
        rapidhash_v3_file_lanes::<R, LANES, PIECE, PLAIN>(reader, secrets)
    }
}

// Reads a reader's remaining bytes. Each piece is read before memory for it is allocated, and an
// interrupted read is an error like any other. It is out of line because of its large array.
#[inline(never)]
fn read_whole<A: Allocator, R: Read>(alloc: A, input: &mut R) -> Result<Vec<u8, A>, CliFault> {
    let mut whole = Vec::new(alloc);
    let mut piece = [0u8; PIECE];
    for _ in 0..u64::MAX {
        match input.read(&mut piece) {
            Ok(0) => return Ok(whole),
            Ok(count) => {
                if append(&mut whole, &piece[..count]).is_err() {
                    return Err(CliFault::Memory);
                }
            }
            Err(_) => return Err(CliFault::Stdin),
        }
    }
    Err(CliFault::Stdin)
}

// Adds a piece. The vector doubles its capacity; if that allocation fails, it allocates only what
// the piece needs.
#[inline(always)]
fn append<A: Allocator>(whole: &mut Vec<u8, A>, piece: &[u8]) -> Result<(), AllocError> {
    if whole.extend_from_slice(piece).is_ok() {
        return Ok(());
    }
    whole.reserve_exact(piece.len())?;
    whole.extend_from_slice(piece)
}
