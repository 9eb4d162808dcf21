//! Hashes of random messages in all forms, with all options, and a checksum of them.

use super::kit::Result;
use super::proved::bodies::{Secrets, Tested, body};
use super::proved::form::{Options, Version};
use super::proved::items::{Item, answered};
use super::proved::rules::secrets_of;
use rapidhash::v3::RapidStreamHasherLanes;
use rapidhash::{v1, v3};

/// Messages are cut from a buffer of this many bytes at any offset, so at any alignment.
const ROOM: usize = 16384;

/// Words that do not come from the crate: the messages must not depend on the tested code.
struct Draws(u64);

impl Draws {
    fn word(&mut self) -> u64 {
        self.0 = self.0.wrapping_add(0x9e37_79b9_7f4a_7c15);
        let mut word = self.0;
        word = (word ^ (word >> 30)).wrapping_mul(0xbf58_476d_1ce4_e5b9);
        word = (word ^ (word >> 27)).wrapping_mul(0x94d0_49bb_1331_11eb);
        word ^ (word >> 31)
    }

    /// Returns a number from 0 to one less than the bound.
    fn below(&mut self, bound: usize) -> usize {
        (self.word() % bound as u64) as usize
    }

    fn flag(&mut self) -> bool {
        self.word() % 2 == 1
    }

    /// Returns a length. Most are up to 1,100, many of them short, and one in 16 is longer.
    fn length(&mut self) -> usize {
        match self.below(16) {
            0 => 1101 + self.below(7000),
            1..=5 => self.below(129),
            _ => self.below(1101),
        }
    }

    fn secrets(&mut self) -> Result<Secrets> {
        match self.below(4) {
            0 => secrets_of("default"),
            1 => secrets_of(&format!("make:{}", self.word())),
            _ => Ok(self.words()),
        }
    }

    /// Returns a seed and secrets of arbitrary words.
    fn words(&mut self) -> Secrets {
        let seed = self.word();
        let [a, b, c, d, e, f, g] = [(); 7].map(|()| self.word());
        Secrets {
            three: v1::RapidSecrets { seed, secrets: [a, b, c] },
            seven: v3::RapidSecrets { seed, secrets: [a, b, c, d, e, f, g] },
        }
    }
}

/// Returns a message in random pieces.
fn in_pieces<'d>(draws: &mut Draws, message: &'d [u8]) -> Vec<&'d [u8]> {
    let mut rest = message;
    let mut pieces = Vec::new();
    while !rest.is_empty() {
        let (piece, others) = rest.split_at(draws.below(rest.len()) + 1);
        pieces.push(piece);
        rest = others;
    }
    pieces
}

/// Returns a message with integers in the middle, as items of the hasher of maps.
fn in_memory(draws: &mut Draws, message: &[u8]) -> Vec<Item> {
    let (front, back) = message.split_at(draws.below(message.len() + 1));
    let mut all = vec![Item::Bytes(front.to_vec())];
    for _ in 0..draws.below(6) {
        let word = draws.word();
        all.push(match word % 5 {
            0 => Item::U8((word >> 8) as u8),
            1 => Item::U16((word >> 8) as u16),
            2 => Item::I32((word >> 8) as i32),
            3 => Item::U64(word),
            _ => Item::U128(u128::from(word) << 64 | u128::from(draws.word())),
        });
    }
    all.push(Item::Bytes(back.to_vec()));
    all
}

/// Returns the hash of a version, with the options as values.
fn hash(version: Tested, options: Options, compact: bool, secrets: &Secrets, bytes: &[u8]) -> u64 {
    if compact {
        body::<true>(version, options, secrets, bytes)
    } else {
        body::<false>(version, options, secrets, bytes)
    }
}

/// Returns the hash of the stream hasher with some lanes and options.
fn streamed<const LANES: usize, const AVALANCHE: bool, const PROTECTED: bool>(
    secrets: &v3::RapidSecrets,
    pieces: &[&[u8]],
) -> u64 {
    let mut hasher = RapidStreamHasherLanes::<LANES, AVALANCHE, PROTECTED>::new(secrets);
    pieces.iter().for_each(|piece| hasher.write(piece));
    hasher.finish()
}

/// Returns the same, with the options as values.
fn of_pieces<const LANES: usize>(options: Options, secrets: &v3::RapidSecrets, pieces: &[&[u8]]) -> u64 {
    match (options.avalanche, options.protected) {
        (true, true) => streamed::<LANES, true, true>(secrets, pieces),
        (true, false) => streamed::<LANES, true, false>(secrets, pieces),
        (false, true) => streamed::<LANES, false, true>(secrets, pieces),
        (false, false) => streamed::<LANES, false, false>(secrets, pieces),
    }
}

/// The hash of a message in pieces.
type OfPieces = fn(Options, &v3::RapidSecrets, &[&[u8]]) -> u64;

/// The versions with streams.
const STREAMS: [(Version, OfPieces); 3] =
    [(Version::V3, of_pieces::<7>), (Version::V3Micro, of_pieces::<5>), (Version::V3Nano, of_pieces::<3>)];

/// Returns a hash. A message in pieces must have the hash of the whole.
fn one(draws: &mut Draws, message: &[u8]) -> Result<u64> {
    let secrets = draws.secrets()?;
    let [avalanche, compact, protected, sponge] = [(); 4].map(|()| draws.flag());
    let options = Options { avalanche, protected };
    let place = draws.below(Tested::ALL.len() + STREAMS.len() + 1);
    if let Some(version) = Tested::ALL.get(place) {
        return Ok(hash(*version, options, compact, &secrets, message));
    }
    let Secrets { seven, .. } = secrets;
    let (version, of_pieces) = match STREAMS.get(place - Tested::ALL.len()) {
        Some(stream) => stream,
        None => {
            let items = in_memory(draws, message);
            return Ok(if compact {
                answered::<true>(options, sponge, &seven, &items)
            } else {
                answered::<false>(options, sponge, &seven, &items)
            });
        }
    };
    let pieces = in_pieces(draws, message);
    let whole = hash(Tested::Named(*version), options, compact, &secrets, message);
    if of_pieces(options, &seven, &pieces) == whole {
        Ok(whole)
    } else {
        let length = message.len();
        Err(format!("{length} bytes in pieces have another hash than the whole").into())
    }
}

/// Returns the checksum of the hashes of `count` messages, in order.
pub fn checksum(count: u64) -> Result<u64> {
    let mut draws = Draws(0);
    let mut room = vec![0u8; ROOM];
    for bytes in room.chunks_exact_mut(8) {
        bytes.copy_from_slice(&draws.word().to_le_bytes());
    }
    let mut sum = 0u64;
    for _ in 0..count {
        let length = draws.length();
        let at = draws.below(ROOM - length - 8);
        // No message repeats: eight bytes of each are new, or all if it is shorter.
        let changed = at + draws.below(length.saturating_sub(8) + 1);
        room[changed..changed + 8].copy_from_slice(&draws.word().to_le_bytes());
        let hash = one(&mut draws, &room[at..at + length])?;
        sum = (sum.rotate_left(9) ^ hash).wrapping_mul(0x9e37_79b9_7f4a_7c15);
    }
    Ok(sum)
}
