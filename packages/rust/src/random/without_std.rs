//! The words that the program sets, or else words made from addresses. What is made of them is in atomics: `core` has
//! nothing larger that safe code shares.

use crate::held::Secrets;
use crate::proved::inner::state::seeded::Seeded;
use crate::rng::rapidrng_fast;
use crate::seeding::{GlobalSecrets, SeedSource};
use std::ptr::addr_of;
#[cfg(not(target_has_atomic = "64"))]
use std::sync::atomic::AtomicU32;
#[cfg(target_has_atomic = "64")]
use std::sync::atomic::AtomicU64;
use std::sync::atomic::{AtomicBool, AtomicU8, Ordering};

/// A word that threads share.
#[cfg(target_has_atomic = "64")]
struct Word(AtomicU64);

#[cfg(target_has_atomic = "64")]
impl Word {
    #[allow(clippy::declare_interior_mutable_const)]
    const ZERO: Word = Word(AtomicU64::new(0));

    #[inline(always)]
    fn get(&self) -> u64 {
        self.0.load(Ordering::Relaxed)
    }

    #[inline(always)]
    fn set(&self, word: u64) {
        self.0.store(word, Ordering::Relaxed);
    }
}

/// A word that threads share, in its low and its high half.
#[cfg(not(target_has_atomic = "64"))]
struct Word(AtomicU32, AtomicU32);

#[cfg(not(target_has_atomic = "64"))]
impl Word {
    #[allow(clippy::declare_interior_mutable_const)]
    const ZERO: Word = Word(AtomicU32::new(0), AtomicU32::new(0));

    #[inline(always)]
    fn get(&self) -> u64 {
        let half = |part: &AtomicU32| u64::from(part.load(Ordering::Relaxed));
        half(&self.0) | half(&self.1) << 32
    }

    #[inline(always)]
    fn set(&self, word: u64) {
        self.0.store(word as u32, Ordering::Relaxed);
        self.1.store((word >> 32) as u32, Ordering::Relaxed);
    }
}

/// The words of the program.
static OWN: [Word; 2] = [Word::ZERO; 2];

/// What is made of the words of this process: secrets, the seed beside them, and the source of its other seeds.
static SECRETS: [Word; 7] = [Word::ZERO; 7];
static SEED: Word = Word::ZERO;
static COUNTER: Word = Word::ZERO;
static RANDOM: Word = Word::ZERO;

/// How far the source has come.
static DRAWN: Word = Word::ZERO;

/// What this process has: one of the four numbers below. A step to the second or third decides about its words.
static STATE: AtomicU8 = AtomicU8::new(NOTHING);

/// No state was made and no word was set.
const NOTHING: u8 = 0;
/// A state was made without words of the program, which cannot be set any more.
const WITHOUT: u8 = 1;
/// The words of the program are set.
const SET: u8 = 2;
/// What is made of the words is stored.
const MADE: u8 = 3;

/// Sets the words of this process and returns whether it had none. A state that is made before the last step decides
/// for all of them.
pub(super) fn set(words: [u64; 2]) -> bool {
    static BEGUN: AtomicBool = AtomicBool::new(false);
    if BEGUN.swap(true, Ordering::Relaxed) {
        return false;
    }
    OWN.iter().zip(words).for_each(|(own, word)| own.set(word));
    STATE.compare_exchange(NOTHING, SET, Ordering::AcqRel, Ordering::Acquire).is_ok()
}

/// Decides about the words, and stores what is made of them. Threads that are here at the same time store the same.
#[cold]
fn make() {
    static PLACE: u8 = 0;
    let acquire = Ordering::Acquire;
    let [first, second] = match STATE.compare_exchange(NOTHING, WITHOUT, acquire, acquire) {
        Err(MADE) => return,
        Err(SET) => [OWN[0].get(), OWN[1].get()],
        _ => {
            let mut state = addr_of!(PLACE) as u64;
            [(); 2].map(|()| rapidrng_fast(&mut state))
        }
    };
    let global = GlobalSecrets::new(first);
    let source = SeedSource::new(&global, second);
    let secrets = SECRETS.iter().zip(global.get());
    secrets.for_each(|(place, secret)| place.set(*secret));
    SEED.set(global.get_global_seed());
    COUNTER.set(source.counter);
    RANDOM.set(source.random);
    STATE.store(MADE, Ordering::Release);
}

/// Lets `make` run before the first state.
#[inline(always)]
fn begin() {
    if STATE.load(Ordering::Acquire) != MADE {
        make();
    }
}

/// The content of a state: its seed, and a reference to its secrets. Those of the process have none: they are `None`.
#[derive(Clone, Copy)]
pub(crate) struct Kept<'s> {
    pub(crate) seed: u64,
    own: Option<&'s [u64; 7]>,
}

impl<'s> Kept<'s> {
    #[inline(always)]
    pub(crate) const fn new(seed: u64, words: &'s [u64; 7]) -> Self {
        Kept { seed, own: Some(words) }
    }

    #[inline(always)]
    const fn of_process(seed: u64) -> Self {
        Kept { seed, own: None }
    }

    /// Returns the seed and the secrets. Those of the process are stored, since a state was made.
    #[inline(always)]
    pub(crate) fn seeded(&self) -> Seeded<'s> {
        let secrets = match self.own {
            Some(words) => Secrets::new(words),
            None => Secrets::from(std::array::from_fn(|place| SECRETS[place].get())),
        };
        Seeded { seed: self.seed, secrets }
    }
}

impl PartialEq for Kept<'_> {
    fn eq(&self, other: &Self) -> bool {
        self.seeded() == other.seeded()
    }
}

impl Eq for Kept<'_> {}

/// Returns a seed with the secrets of this process.
#[inline]
pub(crate) fn of_process(seed: u64) -> Kept<'static> {
    begin();
    Kept::of_process(seed)
}

/// Returns the single seed of this process, with its secrets.
#[inline]
pub(crate) fn global() -> Kept<'static> {
    begin();
    Kept::of_process(SEED.get())
}

/// Returns the next seed of this process, with its secrets. Threads that draw at the same time may begin at the same
/// place, but each goes on by an odd number made from the address of its stack.
#[inline]
pub(crate) fn next() -> Kept<'static> {
    let here = 0u8;
    let step = rapidrng_fast(&mut (addr_of!(here) as u64)) | 1;
    begin();
    let drawn = DRAWN.get().wrapping_add(step);
    DRAWN.set(drawn);
    let mut source = SeedSource { counter: COUNTER.get().wrapping_add(drawn), random: RANDOM.get() };
    Kept::of_process(source.next())
}
