// Made by scripts/rust_crate from crates/rapidhash_portable/src/v3/stream/parts.rt: change that file.

//! The data of a stream hasher and all its code.
//!
//! The array `kept` holds 16 bytes that are already folded, and then the new ones, so that the last
//! 16 bytes of any longer message are next to each other in it.

use super::folded::Folded;
use crate::held::Owned;
use crate::kernel::NOT_COMPACT;
use crate::kernel::v3::{close_tail, hash};

/// The data of a stream hasher.
#[repr(C)]
#[derive(Clone)]
pub(crate) struct Parts<'a> {
    pub(crate) secrets: Owned<'a>,
    pub(crate) folded: Folded,
    /// Whether a chunk was folded.
    pub(crate) any: bool,
    /// The last 16 folded bytes, and then the new ones.
    pub(crate) kept: [u8; 128],
    /// The number of new bytes. A whole chunk of them is folded when a further byte follows.
    pub(crate) len: usize,
}

/// Returns the 16 bytes from `from` on.
#[inline(always)]
pub(super) fn sixteen(bytes: &[u8], from: usize) -> [u8; 16] {
    let mut out = [0; 16];
    out.copy_from_slice(&bytes[from..from + 16]);
    out
}

/// Copies `piece` in two moves, its first and its last `COUNT` bytes, which may overlap.
#[inline(always)]
fn copy_ends<const COUNT: usize>(room: &mut [u8], piece: &[u8]) {
    let last = piece.len() - COUNT;
    room[..COUNT].copy_from_slice(&piece[..COUNT]);
    room[last..].copy_from_slice(&piece[last..]);
}

/// Copies a piece over as many bytes. One of 8 to 32 bytes is copied by moves of 8 or 16 bytes: a
/// copy of a length that the compiler does not know is a call.
#[inline(always)]
fn copy_piece(room: &mut [u8], piece: &[u8]) {
    if piece.len() < 8 || piece.len() > 32 {
        room.copy_from_slice(piece);
    } else if piece.len() <= 16 {
        copy_ends::<8>(room, piece);
    } else {
        copy_ends::<16>(room, piece);
    }
}

impl<'a> Parts<'a> {
    /// Adds a piece.
    #[inline(always)]
    pub(crate) fn write<const LANES: usize, const PROTECTED: bool>(&mut self, piece: &[u8]) {
        if piece.len() <= 16 * LANES - self.len {
            let start = 16 + self.len;
            let end = start + piece.len();
            copy_piece(&mut self.kept[start..end], piece);
            self.len += piece.len();
        } else {
            self.write_past::<LANES, PROTECTED>(piece);
        }
    }

    /// Adds a piece that doesn't fit: fills the buffer and folds it, then folds every whole chunk
    /// that a further byte follows in place, and keeps the rest and the 16 bytes before it.
    #[inline(never)]
    fn write_past<const LANES: usize, const PROTECTED: bool>(&mut self, piece: &[u8]) {
        let room = 16 * LANES - self.len;
        let start = 16 + self.len;
        self.kept[start..16 + 16 * LANES].copy_from_slice(&piece[..room]);
        let kept: &[u8] = &self.kept;
        self.folded.step::<LANES, PROTECTED>(&kept[16..16 + 16 * LANES], &self.secrets.secrets);
        self.any = true;
        let rest = self.folded.fold_chunks::<LANES, PROTECTED>(&piece[room..], &self.secrets.secrets);
        let end = piece.len() - rest.len();
        let carried = if end >= 16 { sixteen(piece, end - 16) } else { sixteen(&self.kept, 16 * LANES) };
        self.kept[..16].copy_from_slice(&carried);
        self.kept[16..16 + rest.len()].copy_from_slice(rest);
        self.len = rest.len();
    }

    /// Returns the hash of the message. A message without a folded chunk is in the buffer as a
    /// whole.
    #[inline(always)]
    pub(crate) fn finish<const LANES: usize, const AVALANCHE: bool, const PROTECTED: bool>(&self) -> u64 {
        let kept: &[u8] = &self.kept;
        let new = &kept[16..16 + self.len];
        if !self.any {
            let (seed, secrets) = (self.secrets.seed, &self.secrets.secrets);
            return hash::<LANES, AVALANCHE, NOT_COMPACT, PROTECTED>(new, seed, secrets);
        }
        let joined = self.folded.joined::<LANES>();
        let ending = &kept[..16 + self.len];
        close_tail::<AVALANCHE, PROTECTED>(new, ending, joined, &self.secrets.secrets)
    }

    /// Starts again with no bytes.
    #[inline(always)]
    pub(crate) fn reset<const LANES: usize, const PROTECTED: bool>(&mut self) {
        self.folded.clear(self.secrets.seed);
        self.any = false;
        self.len = 0;
    }
}
