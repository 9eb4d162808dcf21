//! Times hashes of messages, and maps, of growing sizes, with several crates in turn. It prints a line per row and
//! crate: both, and the minimum of the repeats in nanoseconds. `bench/growth` builds and runs it.

use std::collections::HashMap;
use std::hash::{BuildHasher, Hash};
use std::hint::black_box;
use std::time::Instant;
use yervound::rng::RapidRng;

type Work<'w> = (&'w str, &'w dyn Fn() -> Vec<(String, f64)>);

/// Measures the libraries in turn and prints the minimum time of each row.
fn alternate(repeats: u64, works: &[Work]) {
    let mut least: Vec<Vec<(String, f64)>> = works.iter().map(|(_, work)| work()).collect();
    for _ in 1..repeats {
        for (rows, (_, work)) in least.iter_mut().zip(works) {
            for (row, (_, time)) in rows.iter_mut().zip(work()) {
                row.1 = row.1.min(time);
            }
        }
    }
    for (rows, (library, _)) in least.iter().zip(works) {
        rows.iter().for_each(|(what, time)| println!("{what}\t{library}\t{time:.3}"));
    }
}

/// Returns the nanoseconds of each of some items.
fn time(items: usize, work: impl FnOnce() -> u64) -> f64 {
    let start = Instant::now();
    black_box(work());
    start.elapsed().as_nanos() as f64 / items as f64
}

/// The messages of a length, which the compiler does not know: 4 MiB of them, or one. Each begins at another place.
fn messages(bytes: &[u8], length: usize, hash: impl Fn(&[u8]) -> u64) -> Vec<(String, f64)> {
    let count = ((1 << 22) / length).max(1);
    let text = |at: usize| &bytes[at * 72 % 4096..][..black_box(length)];
    let all = || (0..count).fold(0, |sum: u64, at| sum.wrapping_add(hash(text(at))));
    vec![(format!("message of {length} bytes"), time(count, all))]
}

/// A map of half of the keys: its entries are inserted, and up to a million keys are found, or are missing.
fn map<K: Hash + Eq + Clone, S: BuildHasher + Default>(of: &str, keys: &[K]) -> Vec<(String, f64)> {
    let (present, missing) = keys.split_at(keys.len() / 2);
    let (count, mut map) = (present.len(), HashMap::<K, u64, S>::default());
    let insert = time(count, || {
        present.iter().for_each(|key| _ = map.insert(key.clone(), 1));
        map.len() as u64
    });
    let found = |keys: &[K]| {
        let some = &keys[..count.min(1_000_000)];
        time(some.len(), || some.iter().filter(|key| map.contains_key(*key)).count() as u64)
    };
    let times = [("insert", insert), ("hit", found(present)), ("miss", found(missing))];
    times.map(|(what, time)| (format!("map of {count} {of}, {what}"), time)).into()
}

fn maps<K: Hash + Eq + Clone>(of: &str, keys: &[K]) {
    alternate(
        if keys.len() > 1_000_000 { 3 } else { 10 },
        &[
            ("rust", &|| map::<K, yervound::fast::RandomState>(of, keys)),
            ("crate", &|| map::<K, upstream::fast::RandomState>(of, keys)),
            ("ahash", &|| map::<K, ahash::RandomState>(of, keys)),
            ("fxhash", &|| map::<K, fxhash::FxBuildHasher>(of, keys)),
            ("std", &|| map::<K, std::collections::hash_map::RandomState>(of, keys)),
        ],
    );
}

fn text(rng: &mut RapidRng) -> String {
    let length = 5 + rng.next() % 56;
    (0..length).map(|_| (b'a' + (rng.next() % 26) as u8) as char).collect()
}

fn all_messages(rng: &mut RapidRng) {
    let bytes: Vec<u8> = (0..(1 << 30) / 8 + 1024).flat_map(|_| rng.next().to_le_bytes()).collect();
    let state = ahash::RandomState::with_seeds(1, 2, 3, 4);
    for length in (4..=30).step_by(2).map(|power| 1 << power) {
        alternate(
            if length > 1 << 20 { 7 } else { 40 },
            &[
                ("rust", &|| messages(&bytes, length, yervound::v3::rapidhash_v3)),
                ("crate", &|| messages(&bytes, length, upstream::v3::rapidhash_v3)),
                ("xxh3", &|| messages(&bytes, length, xxhash_rust::xxh3::xxh3_64)),
                ("ahash", &|| messages(&bytes, length, |bytes| state.hash_one(bytes))),
                ("fxhash", &|| messages(&bytes, length, |bytes| fxhash::hash64(bytes))),
            ],
        );
    }
}

fn all_maps(rng: &mut RapidRng) {
    for count in [1000, 10_000, 100_000, 1_000_000, 10_000_000] {
        maps("u64", &(0..2 * count).map(|_| rng.next()).collect::<Vec<_>>());
        if count < 10_000_000 {
            maps("texts", &(0..2 * count).map(|_| text(rng)).collect::<Vec<_>>());
        }
    }
}

fn main() {
    let (mut rng, wanted) = (RapidRng::new(3), std::env::args().nth(1));
    let parts: [(&str, fn(&mut RapidRng)); 2] = [("messages", all_messages), ("maps", all_maps)];
    parts.iter().filter(|(name, _)| wanted.iter().all(|it| it == name)).for_each(|(_, part)| part(&mut rng));
}
