//! Compares messages of every length with the in-memory core as a plain program, lane after lane.

use rapidhash::inner::RapidHasher;
use rapidhash::v3::DEFAULT_RAPID_SECRETS;
use std::hash::Hasher;

/// Returns the halves of a product, each XOR a factor if it is protected.
fn product(protected: bool, a: u64, b: u64) -> (u64, u64) {
    let whole = u128::from(a) * u128::from(b);
    let (low, high) = (whole as u64, (whole >> 64) as u64);
    if protected { (low ^ a, high ^ b) } else { (low, high) }
}

fn mix(protected: bool, a: u64, b: u64) -> u64 {
    let (low, high) = product(protected, a, b);
    low ^ high
}

/// Returns the little-endian number of 8 or 4 bytes.
fn word(bytes: &[u8], place: usize, size: usize) -> u64 {
    let part = &bytes[place..place + size];
    part.iter().rev().fold(0, |word, byte| word << 8 | u64::from(*byte))
}

/// Returns a lane after the pairs of its column.
fn lane(protected: bool, bytes: &[u8], pairs: impl Iterator<Item = usize>, secret: u64, seed: u64) -> u64 {
    let fold = |lane, at: usize| mix(protected, word(bytes, 16 * at, 8) ^ secret, word(bytes, 16 * at + 8, 8) ^ lane);
    pairs.fold(seed, fold)
}

/// Returns the last two words.
fn last_words(bytes: &[u8]) -> (u64, u64) {
    let n = bytes.len();
    match n {
        0 => (0, 0),
        1..=3 => (u64::from(bytes[0]) << 45 | u64::from(bytes[n - 1]), u64::from(bytes[n / 2])),
        4..=7 => (word(bytes, 0, 4), word(bytes, n - 4, 4)),
        _ => (word(bytes, n.saturating_sub(16), 8), word(bytes, n - 8, 8)),
    }
}

/// Returns the hash of a hasher with the default seed after one write.
fn defined(avalanche: bool, protected: bool, bytes: &[u8]) -> u64 {
    let (n, s) = (bytes.len(), DEFAULT_RAPID_SECRETS.secrets);
    let (lanes, rows, threes) = match n {
        0..=48 => (3, 0, 0),
        49..=400 => (3, n / 48, 0),
        _ => (7, n / 112, n % 112 / 48),
    };
    let wide = lanes * rows;
    let mut seed = (0..lanes).fold(0, |seed, at| {
        let of_threes = (0..if at < 3 { threes } else { 0 }).map(|row| wide + 3 * row + at);
        let pairs = (0..rows).map(|row| lanes * row + at).chain(of_threes);
        seed ^ lane(protected, bytes, pairs, s[at], DEFAULT_RAPID_SECRETS.seed)
    });
    seed = lane(protected, bytes, wide + 3 * threes..n.saturating_sub(1) / 16, s[0], seed).wrapping_add(n as u64);
    let (first, second) = last_words(bytes);
    let (low, high) = product(protected, first ^ s[0], second ^ seed);
    if !avalanche {
        return low ^ high;
    }
    mix(protected, mix(protected, low ^ 0xaaaa_aaaa_aaaa_aaaa ^ seed, high ^ s[1]), s[1])
}

fn answer<const AVALANCHE: bool, const COMPACT: bool, const PROTECTED: bool>(bytes: &[u8]) -> u64 {
    let mut hasher = RapidHasher::<AVALANCHE, true, COMPACT, PROTECTED>::default();
    hasher.write(bytes);
    hasher.finish()
}

#[test]
fn all_sizes() {
    let bytes: Vec<u8> = (0..1024u32).map(|at| (at * at + 7 * at) as u8 ^ (at >> 3) as u8).collect();
    for n in 0..=bytes.len() {
        let x = &bytes[..n];
        let found = [
            answer::<true, true, false>(x),
            answer::<false, true, false>(x),
            answer::<true, true, true>(x),
            answer::<false, true, true>(x),
            answer::<true, false, false>(x),
            answer::<false, false, false>(x),
            answer::<true, false, true>(x),
            answer::<false, false, true>(x),
        ];
        let known = [(true, false), (false, false), (true, true), (false, true)].map(|(a, p)| defined(a, p, x));
        assert_eq!((&found[..4], &found[4..]), (&known[..], &known[..]), "{}", n);
    }
}
