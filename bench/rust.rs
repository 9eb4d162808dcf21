//! Times the calls of a Rust program with this library and with the crate rapidhash in turn, in the profile that it was
//! built in. It prints a line per row and library: the group, the row, the library and the nanoseconds, the minimum of
//! the rounds. `bench/rust` builds and runs it: `ROUNDS PART.. LENGTHS..`. With lengths, only their messages are
//! hashed. With 0 rounds and a form, a loop and a library, `0 FORM LOOP LIBRARY LENGTH`, it makes the calls of that row
//! once.

#[path = "."]
mod ours {
    use ::rapidhash;
    #[path = "hashes.rs"]
    pub mod hashes;
    #[path = "keys.rs"]
    pub mod keys;
}
#[path = "."]
mod theirs {
    use ::upstream as rapidhash;
    #[path = "hashes.rs"]
    pub mod hashes;
    #[path = "keys.rs"]
    pub mod keys;
}

use rapidhash::rng::RapidRng;
use std::hint::black_box;
use std::ops::Range;
use std::time::Instant;

/// The equal lengths of the messages of a row, and the ranges of its mixed lengths.
const LENGTHS: [usize; 21] =
    [0, 3, 4, 8, 12, 16, 17, 24, 32, 48, 64, 100, 112, 113, 160, 256, 512, 1024, 4096, 16_384, 65_536];
const RANGES: [(usize, usize); 5] = [(1, 16), (8, 16), (1, 32), (1, 64), (1, 300)];

/// The messages of a row, as slices and as places in the bytes.
pub struct Texts {
    lengths: String,
    bytes: &'static [u8],
    parts: Vec<Range<usize>>,
    slices: Vec<&'static [u8]>,
}

/// What a row measures: its work returns the nanoseconds of all items.
pub struct Row {
    group: String,
    name: String,
    items: usize,
    work: Box<dyn FnMut() -> u128>,
}

impl Row {
    /// Returns the row of work that this program times.
    pub fn new(group: &str, name: &str, items: usize, mut work: impl FnMut() -> u64 + 'static) -> Self {
        Row::timed(group, name, items, move || {
            let start = Instant::now();
            black_box(work());
            start.elapsed().as_nanos()
        })
    }

    /// Returns the row of work that times itself.
    pub fn timed(group: &str, name: &str, items: usize, work: impl FnMut() -> u128 + 'static) -> Self {
        Row { group: group.to_string(), name: name.to_string(), items, work: Box::new(work) }
    }
}

/// Returns a random number from `low` to `high`.
pub fn between(rng: &mut RapidRng, low: usize, high: usize) -> usize {
    low + rng.next() as usize % (high - low + 1)
}

/// Returns the messages of each of these lengths and ranges, or of all: 500 of a length, but at most 256 KiB, and
/// 20,000 of a range.
fn all_texts(bytes: &'static [u8], wanted: &[String]) -> Vec<Texts> {
    let mut rng = RapidRng::new(9);
    let equal = LENGTHS.iter().map(|&length| (length.to_string(), length, length, 500.min((1 << 18) / (length + 1))));
    let mixed = RANGES.iter().map(|&(low, high)| (format!("{low}-{high}"), low, high, 20_000));
    let is_wanted = |lengths: &String| wanted.is_empty() || wanted.contains(lengths);
    let texts = equal.chain(mixed).filter(|row| is_wanted(&row.0)).map(|(lengths, low, high, count)| {
        let mut part = |_| {
            let (start, length) = (between(&mut rng, 0, 4095), between(&mut rng, low, high));
            start..start + length
        };
        let parts: Vec<Range<usize>> = (0..count).map(&mut part).collect();
        let slices = parts.iter().map(|part| &bytes[part.clone()]).collect();
        Texts { lengths, bytes, parts, slices }
    });
    texts.collect()
}

/// Runs a row of both libraries in turn and prints their minimum times per item.
fn measure(rounds: usize, mut row: Row, mut other: Row) {
    let mut least = [u128::MAX; 2];
    for _ in 0..rounds {
        least = [least[0].min((row.work)()), least[1].min((other.work)())];
    }
    for (library, time) in ["rust", "crate"].into_iter().zip(least) {
        println!("{}\t{}\t{library}\t{:.3}", row.group, row.name, time as f64 / row.items as f64);
    }
}

/// Makes the calls of a row once, for callgrind.
#[inline(never)]
#[unsafe(no_mangle)]
fn counted(row: &mut Row) -> u128 {
    (row.work)()
}

fn main() {
    let mut words = std::env::args().skip(1);
    let rounds = words.next().and_then(|word| word.parse().ok()).expect("ROUNDS PART.. LENGTHS..");
    let (lengths, wanted): (Vec<String>, Vec<String>) = words.partition(|word| word.starts_with(char::is_numeric));
    let mut rng = RapidRng::new(7);
    let bytes: Vec<u8> = (0..1 << 17).map(|_| (rng.next() % 256) as u8).collect();
    let texts: &'static [Texts] = black_box(all_texts(bytes.leak(), &lengths)).leak();
    if let (0, [form, shape, library]) = (rounds, &wanted[..]) {
        let rows = if library == "rust" { ours::hashes::slices(texts) } else { theirs::hashes::slices(texts) };
        let is_asked = |row: &Row| row.group == *form && row.name.ends_with(&format!(" {shape}"));
        return rows.into_iter().filter(is_asked).for_each(|mut row| _ = black_box(counted(&mut row)));
    }
    let parts: [(&str, fn(&'static [Texts]) -> [Vec<Row>; 2]); 4] = [
        ("slices", |texts| [ours::hashes::slices(texts), theirs::hashes::slices(texts)]),
        ("readers", |_| [ours::hashes::readers(), theirs::hashes::readers()]),
        ("threads", |_| [ours::hashes::first_states(), theirs::hashes::first_states()]),
        ("keys", |_| [ours::keys::all(), theirs::keys::all()]),
    ];
    for (name, make) in parts {
        if wanted.is_empty() || wanted.iter().any(|word| word == name) {
            let [rows, others] = make(texts);
            rows.into_iter().zip(others).for_each(|(row, other)| measure(rounds, row, other));
        }
    }
}
