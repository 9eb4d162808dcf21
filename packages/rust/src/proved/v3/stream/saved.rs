// Made by scripts/rust_crate from crates/rapidhash_portable/src/v3/stream/saved.rt: change that file.

//! The 208 bytes of a saved stream.
//!
//! | from | bytes | |
//! |---|---|---|
//! | 0 | 8 | `rapidV3`, and the version of the format, 2 |
//! | 8 | 1 | the number of lanes |
//! | 9 | 1 | the options: 1 for AVALANCHE and 2 for PROTECTED |
//! | 10 | 1 | 1 if a chunk was folded, else 0 |
//! | 11 | 5 | the number of buffered bytes, and four zeros |
//! | 16 | 56 | the seven lanes, each XOR the seed: zeros if the lane has folded nothing |
//! | 72 | 16 | the last 16 folded bytes, or zeros |
//! | 88 | 112 | the buffered bytes, and zeros |
//! | 200 | 8 | CRC-64/XZ of the 200 bytes before, XOR a mark of the stream's seed and secrets |
//!
//! The mark is protected V3 of the bytes 0 to 239. All numbers are little-endian. The secrets
//! aren't part of it.

use super::folded::Folded;
use super::parts::{Parts, sixteen};
use crate::crc::crc64;
use crate::kernel::NOT_COMPACT;
use crate::kernel::v3::hash;
use crate::secrets::RapidSecrets;

/// The number of bytes of a saved stream.
pub const SAVED_SIZE: usize = 208;

/// Returns the bytes 0 to 239.
fn counted() -> [u8; 240] {
    let mut bytes = [0; 240];
    for i in 0..240 {
        bytes[i] = i as u8;
    }
    bytes
}

/// Copies `piece` to `at`, where the zeros of `out` begin. Returns where they begin then.
fn put(out: &mut [u8], at: usize, piece: &[u8]) -> usize {
    let end = at + piece.len();
    out[at..end].copy_from_slice(piece);
    end
}

/// Copies the lanes, each XOR the seed, to `from`, where the zeros of `out` begin.
fn put_lanes(out: &mut [u8], from: usize, lanes: &[u64], seed: u64) {
    let mut at = from;
    for lane in lanes {
        at = put(out, at, &(lane ^ seed).to_le_bytes());
    }
}

/// Returns the number in the 8 bytes from `at` on.
fn word(bytes: &[u8], at: usize) -> u64 {
    let mut out = [0; 8];
    out.copy_from_slice(&bytes[at..at + 8]);
    u64::from_le_bytes(out)
}

/// Returns the options as a byte: 1 for AVALANCHE, plus 2 for PROTECTED.
pub(super) const fn option_byte<const AVALANCHE: bool, const PROTECTED: bool>() -> u8 {
    match (AVALANCHE, PROTECTED) {
        (false, false) => 0,
        (true, false) => 1,
        (false, true) => 2,
        (true, true) => 3,
    }
}

impl<'a> Parts<'a> {
    /// Returns the bytes before the check.
    fn save_body<const LANES: usize>(&self, options: u8) -> [u8; 200] {
        let (lanes, any, len) = (LANES as u8, self.any as u8, self.len as u8);
        let head = [114, 97, 112, 105, 100, 86, 51, 2, lanes, options, any, len, 0, 0, 0, 0];
        let carried = if self.any { sixteen(&self.kept, 0) } else { [0; 16] };
        let mut out = [0; 200];
        put(&mut out, 0, &head);
        put_lanes(&mut out, 16, self.folded.lanes(), self.secrets.seed);
        put(&mut out, 72, &carried);
        put(&mut out, 88, &self.kept[16..16 + self.len]);
        out
    }

    /// Returns the data as bytes.
    pub(super) fn save<const LANES: usize>(&self, options: u8) -> [u8; SAVED_SIZE] {
        let body = self.save_body::<LANES>(options);
        let (seed, secrets) = (self.secrets.seed, &self.secrets.secrets);
        // The CRC finds damage, whatever the message is, and the mark other secrets.
        let mark = hash::<7, true, NOT_COMPACT, true>(&counted(), seed, secrets);
        let check = crc64(&body) ^ mark;
        let mut out = [0; SAVED_SIZE];
        put(&mut out, 0, &body);
        put(&mut out, 200, &check.to_le_bytes());
        out
    }

    /// Returns the data in the bytes.
    pub(super) fn restore(bytes: &[u8], secrets: &RapidSecrets) -> Self {
        let seed = secrets.seed;
        let lanes = [
            word(bytes, 16) ^ seed,
            word(bytes, 24) ^ seed,
            word(bytes, 32) ^ seed,
            word(bytes, 40) ^ seed,
            word(bytes, 48) ^ seed,
            word(bytes, 56) ^ seed,
            word(bytes, 64) ^ seed,
        ];
        let mut kept = [0; 128];
        kept.copy_from_slice(&bytes[72..200]);
        Parts {
            secrets: crate::held::Owned::new(secrets),
            folded: Folded::with_lanes(lanes),
            any: bytes[10] == 1,
            kept,
            len: bytes[11] as usize,
        }
    }

    /// Returns whether each lane that has folded nothing holds the seed.
    pub(super) fn unused_hold_seed<const LANES: usize>(&self) -> bool {
        let used = if self.any { LANES } else { 0 };
        self.folded.lanes()[used..] == [self.secrets.seed; 7][used..]
    }
}
