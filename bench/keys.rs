//! Hashes of keys, and maps of them, with the default states of a crate.

use super::rapidhash::fast::RandomState;
use crate::{Row, between};
use rapidhash::rng::RapidRng;
use std::collections::HashMap;
use std::hash::{BuildHasher, Hash};
use std::hint::black_box;

type Map<K> = HashMap<K, u64, RandomState>;

#[derive(Hash, PartialEq, Eq, Clone)]
struct Person {
    number: u64,
    name: String,
}

fn text(rng: &mut RapidRng, low: usize, high: usize) -> String {
    let length = between(rng, low, high);
    (0..length).map(|_| (b'a' + (rng.next() % 26) as u8) as char).collect()
}

fn hash_one<K: Hash + 'static>(name: &str, keys: Vec<K>) -> Row {
    let state = black_box(RandomState::new());
    Row::new("hash_one", name, keys.len(), move || {
        keys.iter().fold(0, |sum: u64, key| sum.wrapping_add(state.hash_one(key)))
    })
}

fn hashes() -> Vec<Row> {
    let mut rng = RapidRng::new(5);
    let lengths = [(5, 5), (8, 8), (16, 16), (20, 20), (40, 40), (60, 60), (5, 20), (5, 60)];
    let mut texts = |(low, high)| {
        let keys: Vec<String> = (0..1000).map(|_| text(&mut rng, low, high)).collect();
        hash_one(&format!("text of {low} to {high}"), keys)
    };
    let mut rows = Vec::from(lengths.map(&mut texts));
    let words: Vec<u64> = (0..1000).map(|_| rng.next()).collect();
    rows.push(hash_one("(u32, u64)", words.iter().map(|&word| (word as u32, word)).collect()));
    rows.push(hash_one("(u64, text)", words.iter().map(|&word| (word, text(&mut rng, 5, 20))).collect()));
    rows.push(hash_one("u64", words));
    rows.push(hash_one("struct", people(&mut rng, 1000)));
    rows
}

fn people(rng: &mut RapidRng, count: usize) -> Vec<Person> {
    (0..count).map(|_| Person { number: rng.next(), name: text(rng, 5, 20) }).collect()
}

#[inline(never)]
fn filled<K: Hash + Eq + Clone>(keys: &[K]) -> Map<K> {
    let mut map = Map::default();
    for (place, key) in keys.iter().enumerate() {
        map.insert(key.clone(), place as u64);
    }
    map
}

#[inline(never)]
fn found<K: Hash + Eq>(map: &Map<K>, keys: &[K]) -> u64 {
    keys.iter().filter(|key| map.contains_key(*key)).count() as u64
}

/// Maps of half of the keys: the other half misses.
fn map<K: Hash + Eq + Clone + 'static>(group: &str, mut keys: Vec<K>) -> [Row; 3] {
    let (missing, count) = (keys.split_off(keys.len() / 2), keys.len() / 2);
    let [keys, missing]: [&'static [K]; 2] = [keys.leak(), missing.leak()];
    let map: &'static Map<K> = Box::leak(Box::new(filled(keys)));
    [
        Row::new(group, &format!("insert of {count}"), count, || filled(keys).len() as u64),
        Row::new(group, &format!("hit of {count}"), count, || found(map, keys)),
        Row::new(group, &format!("miss of {count}"), count, || found(map, missing)),
    ]
}

/// What a program with many small maps does.
fn small_maps() -> [Row; 3] {
    let count = 1000;
    [
        Row::new("small map", "made and dropped", count, move || {
            (0..count).for_each(|_| _ = black_box(Map::<u64>::default()));
            0
        }),
        Row::new("small map", "a state and a hash", count, move || {
            (0..count).fold(0, |sum, _| sum ^ RandomState::new().hash_one(1u8))
        }),
        Row::new("small map", "of 1", count, move || {
            for number in 0..count as u64 {
                let mut map = Map::default();
                map.insert(number, number);
                black_box(map);
            }
            0
        }),
    ]
}

/// Counts the words of a text with few frequent and many rare words.
fn word_count() -> Row {
    let mut rng = RapidRng::new(3);
    let words: Vec<String> = (0..5000).map(|_| text(&mut rng, 2, 12)).collect();
    let mut line = String::new();
    for _ in 0..50_000 {
        let most = between(&mut rng, 1, 5000);
        line += &words[between(&mut rng, 0, most - 1)];
        line.push(' ');
    }
    Row::new("word count", "a word", 50_000, move || {
        let mut counts: Map<String> = Map::default();
        for word in line.split_ascii_whitespace() {
            match counts.get_mut(word) {
                Some(count) => *count += 1,
                None => _ = counts.insert(word.to_string(), 1),
            }
        }
        counts.len() as u64
    })
}

pub fn all() -> Vec<Row> {
    let (mut rng, mut rows) = (RapidRng::new(11), hashes());
    for count in [1000, 30_000] {
        rows.extend(map("map of u64", (0..2 * count).map(|_| rng.next()).collect()));
        rows.extend(map("map of texts", (0..2 * count).map(|_| text(&mut rng, 5, 60)).collect()));
        rows.extend(map("map of structs", people(&mut rng, 2 * count)));
    }
    rows.extend(small_maps());
    rows.push(word_count());
    rows
}
