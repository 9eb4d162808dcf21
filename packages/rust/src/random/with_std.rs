//! The random words of std. On wasm32-unknown-unknown std has none: there they are the same in each run.

pub(crate) use crate::held::Kept;
use crate::rng::rapidrng_fast;
use crate::seeding::{GlobalSecrets, SeedSource};
use std::cell::Cell;
use std::collections::hash_map::RandomState;
use std::hash::{BuildHasher, Hasher};
#[cfg(rapidhash_no_once_lock)]
use std::sync::PoisonError;
use std::sync::atomic::{AtomicUsize, Ordering};

/// The seed and the secrets of this process, and the word from which its threads start.
struct Process {
    global: GlobalSecrets,
    word: u64,
}

impl Process {
    fn of([first, word]: [u64; 2]) -> Self {
        Process { global: GlobalSecrets::new(first), word }
    }

    fn new() -> Self {
        Process::with([0; 2])
    }

    /// Returns the process whose words are those of the system, each changed by one of the program, by XOR.
    fn with(own: [u64; 2]) -> Self {
        Process::of(own.map(|word| word ^ RandomState::new().build_hasher().finish()))
    }
}

#[cfg(not(rapidhash_no_once_lock))]
static PROCESS: std::sync::OnceLock<Process> = std::sync::OnceLock::new();

#[cfg(not(rapidhash_no_once_lock))]
#[inline]
fn process() -> &'static Process {
    PROCESS.get().unwrap_or_else(|| {
        let drawn = Process::new();
        PROCESS.get_or_init(|| drawn)
    })
}

/// Adds words to those of this process and returns whether it had none.
#[cfg(not(rapidhash_no_once_lock))]
pub(super) fn set(words: [u64; 2]) -> bool {
    PROCESS.set(Process::with(words)).is_ok()
}

/// Before Rust 1.70, which has no `OnceLock`: here the first call allocates.
#[cfg(rapidhash_no_once_lock)]
static PROCESS: std::sync::Mutex<Option<&'static Process>> = std::sync::Mutex::new(None);

#[cfg(rapidhash_no_once_lock)]
fn process() -> &'static Process {
    let mut process = PROCESS.lock().unwrap_or_else(PoisonError::into_inner);
    process.get_or_insert_with(|| Box::leak(Box::new(Process::new())))
}

/// Adds words to those of this process and returns whether it had none.
#[cfg(rapidhash_no_once_lock)]
pub(super) fn set(words: [u64; 2]) -> bool {
    let mut process = PROCESS.lock().unwrap_or_else(PoisonError::into_inner);
    let is_first = process.is_none();
    process.get_or_insert_with(|| Box::leak(Box::new(Process::with(words))));
    is_first
}

/// The source of a thread's seeds, with the secrets that go with them. Its words are in cells of their own: as a whole
/// it would be copied by moves that wait for the last store.
struct Seeds {
    secrets: Cell<Option<&'static [u64; 7]>>,
    counter: Cell<u64>,
    random: Cell<u64>,
}

thread_local! {
    static SEEDS: Seeds = const {
        Seeds {
            secrets: Cell::new(None),
            counter: Cell::new(0),
            random: Cell::new(0),
        }
    };
}

impl Seeds {
    /// Starts the seeds of a new thread. Each thread has its own number, which wraps only after all of them.
    #[cold]
    fn start(&self) -> &'static [u64; 7] {
        static THREADS: AtomicUsize = AtomicUsize::new(0);
        let process = process();
        let number = THREADS.fetch_add(1, Ordering::Relaxed) as u64;
        let word = rapidrng_fast(&mut process.word.wrapping_add(number));
        let source = SeedSource::new(&process.global, word);
        self.counter.set(source.counter);
        self.random.set(source.random);
        self.secrets.set(Some(process.global.get()));
        process.global.get()
    }
}

/// Returns a seed with the secrets of this process.
#[inline]
pub(crate) fn of_process(seed: u64) -> Kept<'static> {
    Kept::new(seed, process().global.get())
}

/// Returns the single seed of this process, with its secrets.
#[inline]
pub(crate) fn global() -> Kept<'static> {
    of_process(process().global.get_global_seed())
}

/// Returns the next seed of this thread, with the secrets of this process.
#[inline]
pub(crate) fn next() -> Kept<'static> {
    SEEDS.with(|seeds| {
        let secrets = seeds.secrets.get().unwrap_or_else(|| seeds.start());
        let mut source = SeedSource { counter: seeds.counter.get(), random: seeds.random.get() };
        let seed = source.next();
        seeds.counter.set(source.counter);
        Kept::new(seed, secrets)
    })
}
