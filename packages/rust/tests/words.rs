//! Tests the words that a program sets, and the states beside them. A process has them once, so other processes run
//! most of the tests.

use rapidhash::fast::{GlobalState, RandomState, SeedableState};
use rapidhash::inner::GlobalSecrets;
use rapidhash::set_random_words;
use rapidhash::v3::RapidSecrets;
use std::mem::size_of;
use std::process::Command;
use std::sync::atomic::{AtomicUsize, Ordering};

/// The name of the variable with which this program runs itself: what the test does in that process.
const INNER: &str = "RAPIDHASH_WORDS";

/// Returns what a test prints in its own process. Emulators skip such tests because their names contain `processes`.
fn told_by_a_process(test: &str, inner: &str) -> String {
    let program = std::env::current_exe().unwrap();
    let words = [test, "--exact", "--nocapture"];
    let output = Command::new(program).args(words).env(INNER, inner).output();
    let output = output.unwrap();
    let text = String::from_utf8(output.stdout).unwrap();
    assert!(output.status.success(), "{text}");
    let at = text.find("told ").expect("a line");
    text[at..].lines().next().unwrap().to_owned()
}

#[test]
fn processes_start_from_both_words() {
    let test = "processes_start_from_both_words";
    match std::env::var(INNER).as_deref() {
        Ok("") => {
            let state = GlobalState::new();
            set_random_words([1, 2]).expect_err("a state was made");
            assert!(state == GlobalState::new());
            println!("told nothing");
        }
        Ok(word) => {
            set_random_words([1, word.parse().unwrap()]).expect("the first words");
            println!("told {}", RapidSecrets::random().seed);
        }
        Err(_) => {
            assert_eq!(told_by_a_process(test, ""), "told nothing");
            assert_ne!(told_by_a_process(test, "2"), told_by_a_process(test, "3"));
        }
    }
}

/// With `std` the words of the program are added to random ones, so that two processes that set the same words differ.
#[test]
fn processes_keep_the_words_of_the_system() {
    if std::env::var_os(INNER).is_some() {
        set_random_words([1, 2]).expect("the first words");
        return println!("told {:?}", RapidSecrets::random().secrets);
    }
    let [one, two] = [(); 2].map(|()| told_by_a_process("processes_keep_the_words_of_the_system", "1"));
    assert_eq!(one == two, cfg!(not(feature = "std")), "{one} {two}");
}

/// States that are made while a thread sets words have the same secrets as all others.
#[test]
fn threads_of_processes_have_the_same_words() {
    if std::env::var_os(INNER).is_some() {
        return same_words_in_threads();
    }
    for _ in 0..100 {
        told_by_a_process("threads_of_processes_have_the_same_words", "1");
    }
}

fn same_words_in_threads() {
    let waiting = AtomicUsize::new(4);
    let start = || {
        waiting.fetch_sub(1, Ordering::SeqCst);
        while waiting.load(Ordering::SeqCst) > 0 {}
    };
    std::thread::scope(|threads| {
        let states = [(); 3].map(|()| {
            threads.spawn(|| {
                start();
                [(); 30].map(|()| GlobalState::new())
            })
        });
        start();
        let is_set = set_random_words([1, 2]).is_ok();
        for state in states.map(|thread| thread.join().unwrap()).concat() {
            assert!(state == GlobalState::new(), "words are set: {is_set}");
        }
    });
    println!("told nothing");
}

/// A state has a seed and a reference, also without `std`.
#[test]
fn states_have_two_words() {
    assert!(size_of::<RandomState>() <= 16);
    assert!(size_of::<GlobalState>() <= 16);
    assert!(size_of::<SeedableState<'_>>() <= 16);
}

/// States of a thread, and of threads at the same time, have different seeds.
#[test]
fn seeds_of_threads_in_processes_differ() {
    if std::env::var_os(INNER).is_none() {
        let told = told_by_a_process("seeds_of_threads_in_processes_differ", "1");
        return assert_eq!(told, "told 400000");
    }
    let seeds = || (0..100_000).map(|_| RapidSecrets::random().seed).collect::<Vec<_>>();
    let all = std::thread::scope(|threads| {
        let threads = [(); 4].map(|()| threads.spawn(seeds));
        threads.map(|thread| thread.join().unwrap()).concat()
    });
    let different: std::collections::HashSet<_> = all.iter().collect();
    println!("told {}", different.len());
}

/// Only this test sets words in the process of the tests.
#[test]
fn words_are_set_once_and_before_any_state() {
    let words = [0x9e37_79b9_7f4a_7c15, 0xbf58_476d_1ce4_e5b9];
    set_random_words(words).expect("the first words");
    let made = RapidSecrets::random().secrets;
    if cfg!(not(feature = "std")) {
        let global = GlobalSecrets::new(words[0]);
        assert_eq!(made, *global.get());
        let expected = SeedableState::custom(global.get_global_seed(), global.get());
        assert_eq!(seed_and_word(&GlobalState::new()), seed_and_word(&expected));
    }
    assert!(RandomState::new() != RandomState::new());
    let error = set_random_words([3, 4]).expect_err("other words");
    assert_eq!(error.to_string(), "the random words of rapidhash are in use: a state was made or they were set");
    assert_eq!(RapidSecrets::random().secrets, made);
}

/// Returns the seed of a state, which a new hasher returns, and a hash that depends on its secrets.
fn seed_and_word(state: &impl std::hash::BuildHasher) -> (u64, u64) {
    use std::hash::Hasher;

    let (seed, mut hasher) = (state.build_hasher().finish(), state.build_hasher());
    hasher.write(b"hello");
    (seed, hasher.finish())
}
