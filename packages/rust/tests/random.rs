//! Tests the states with random seeds: that they differ between maps, threads and processes, and that making the first
//! one of a process or of a thread allocates nothing.
#![cfg(feature = "std")]

use rapidhash::fast::{GlobalState, RandomState, SeedableState};
use rapidhash::v3::RapidSecrets;
use rapidhash::{HashMapExt, HashSetExt, RapidHashMap, RapidHashSet};
use std::alloc::{GlobalAlloc, Layout, System};
use std::cell::Cell;
use std::collections::HashSet;
use std::hash::{BuildHasher, Hasher};
use std::process::Command;

thread_local! {
    /// The number of allocations of this thread. The test harness allocates in its own thread.
    static COUNTED: Cell<usize> = const { Cell::new(0) };
}

/// The system's allocator, which counts the allocations.
struct Counting;

// SAFETY: each call is the system allocator's.
unsafe impl GlobalAlloc for Counting {
    unsafe fn alloc(&self, layout: Layout) -> *mut u8 {
        COUNTED.with(|counted| counted.set(counted.get() + 1));
        System.alloc(layout)
    }

    unsafe fn dealloc(&self, pointer: *mut u8, layout: Layout) {
        System.dealloc(pointer, layout);
    }
}

#[global_allocator]
static ALLOCATOR: Counting = Counting;

fn hash_of(state: &impl BuildHasher) -> u64 {
    let mut hasher = state.build_hasher();
    hasher.write(b"hello");
    hasher.finish()
}

/// Hashes that only a process with these random words has.
fn hashes() -> [u64; 4] {
    [
        hash_of(&RandomState::new()),
        hash_of(&GlobalState::new()),
        hash_of(&SeedableState::random()),
        hash_of(&SeedableState::new(1)),
    ]
}

/// The only test of this process that counts: it runs first, in a process of its own.
fn first_states_allocate_nothing() {
    let before = COUNTED.with(Cell::get);
    let made = hashes();
    let counted = COUNTED.with(Cell::get) - before;
    // Before Rust 1.70, the secrets of the process are on the heap.
    let allowed = if cfg!(rapidhash_no_once_lock) { 1 } else { 0 };
    assert!(counted <= allowed, "{counted} allocations");
    println!("hashes {made:?}");
}

/// The name of the variable with which this program runs itself.
const INNER: &str = "RAPIDHASH_FIRST_STATES";

fn line_of_a_process() -> String {
    let program = std::env::current_exe().unwrap();
    let words = ["processes_differ", "--exact", "--nocapture"];
    let output = Command::new(program).args(words).env(INNER, "1").output();
    let output = output.unwrap();
    let text = String::from_utf8(output.stdout).unwrap();
    assert!(output.status.success(), "{text}");
    let at = text.find("hashes [").expect("a line with hashes");
    text[at..].lines().next().unwrap().to_string()
}

#[test]
fn processes_differ() {
    if std::env::var_os(INNER).is_some() {
        return first_states_allocate_nothing();
    }
    // Two of so many processes would share a word of eight random bits, with a probability of 0.9997.
    let lines: Vec<_> = (0..64).map(|_| line_of_a_process()).collect();
    for column in 1..=4 {
        let seen: HashSet<_> = lines.iter().map(|line| line.split(' ').nth(column)).collect();
        assert_eq!(seen.len(), lines.len(), "column {column} of {lines:?}");
    }
}

/// Maps differ within a thread and between threads, also those that run one after the other on the same stack.
#[test]
fn maps_and_threads_differ() {
    let three = || [(); 3].map(|()| hash_of(&RandomState::new()));
    let mut seen = HashSet::new();
    for _ in 0..1000 {
        for hash in std::thread::spawn(three).join().unwrap() {
            assert!(seen.insert(hash));
        }
    }
    let together: Vec<_> = (0..8).map(|_| std::thread::spawn(three)).collect();
    for thread in together {
        for hash in thread.join().unwrap() {
            assert!(seen.insert(hash));
        }
    }
}

/// Maps and sets differ, however they are made.
#[test]
fn collections_differ() {
    let mut seen = HashSet::new();
    for capacity in [0, 0, 10, 10] {
        let maps: [RapidHashMap<u8, u8>; 2] = [HashMapExt::new(), HashMapExt::with_capacity(capacity)];
        let sets: [RapidHashSet<u8>; 2] = [HashSetExt::new(), HashSetExt::with_capacity(capacity)];
        assert!(maps.iter().all(|map| seen.insert(hash_of(map.hasher()))));
        assert!(sets.iter().all(|set| seen.insert(hash_of(set.hasher()))));
    }
}

/// A process has a single global seed, and the same secrets in each thread.
#[test]
fn threads_have_the_same_secrets() {
    let here = (hash_of(&GlobalState::new()), RapidSecrets::random());
    let there = std::thread::spawn(|| (hash_of(&GlobalState::new()), RapidSecrets::random()));
    let there = there.join().unwrap();
    assert_eq!((here.0, here.1.secrets), (there.0, there.1.secrets));
    assert_ne!(here.1.seed, there.1.seed);
}
