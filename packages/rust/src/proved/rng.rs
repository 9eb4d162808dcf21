// Made by scripts/rust_crate from crates/rapidhash/src/rng.rt: change that file.

//! A small generator for tests and simulations, with a state of 64 bits. It is not a source of
//! secrets.

use rapidhash_portable::util::rapid_mix;
use rapidhash_portable::v3::DEFAULT_RAPID_SECRETS;
use std::time::Duration;

/// What a step adds to the state. It is odd, so all 2^64 states lie on one cycle.
const STEP: u64 = DEFAULT_RAPID_SECRETS.secrets[0];

/// The step's inverse: their product is 1 modulo 2^64.
const INVERSE: u64 = 0x32e2_5c49_d2be_af2d;

/// What a word mixes its state with.
const MASK: u64 = DEFAULT_RAPID_SECRETS.secrets[1];

/// What a time is mixed with to seed the generator.
const MOMENT_MASK: u64 = DEFAULT_RAPID_SECRETS.secrets[2];

/// The seed that a generator seeded from a time starts with.
const MOMENT_SEED: u64 = 0xbdd8_9aa9_8270_4029;

/// Steps the state, and returns the word of the new one.
///
/// ```
/// use rapidhash::rng::rapidrng_fast;
///
/// let mut state = 42;
/// let first = rapidrng_fast(&mut state);
/// let second = rapidrng_fast(&mut state);
/// assert_ne!(first, second);
/// ```
///
/// # Proved
///
/// - `state.new ≡ state_after state.old 1`
/// - `result ≡ word_at state.old 1`
#[inline(always)]
pub fn rapidrng_fast(state: &mut u64) -> u64 {
    let next = state.wrapping_add(STEP);
    *state = next;
    rapid_mix::<false>(next, next ^ MASK)
}

/// Steps the state in the same way, and returns another word of the new one. It has the crate's
/// name: the crate may compute another word on other machines, here all compute the same.
///
/// ```
/// use rapidhash::rng::rapidrng_fast_not_portable;
///
/// let mut state = 42;
/// let word = rapidrng_fast_not_portable(&mut state);
/// ```
///
/// # Proved
///
/// - `state.new ≡ state_after state.old 1`
/// - `result ≡ mix false (state_after state.old 1) s1`
#[inline(always)]
pub fn rapidrng_fast_not_portable(state: &mut u64) -> u64 {
    let next = state.wrapping_add(STEP);
    *state = next;
    rapid_mix::<false>(next, MASK)
}

/// Makes a new seed from the old one and a time, and returns the new seed's word. The caller passes
/// the time, as seconds and nanoseconds since a start of its choice; only the low 32 bits of the
/// seconds are used.
///
/// ```
/// use rapidhash::rng::rapidrng_time;
///
/// let mut seed = 42;
/// let word = rapidrng_time(&mut seed, 1_700_000_000, 123_456_789);
/// ```
///
/// # Panics
///
/// If the nanoseconds are a second or more.
///
/// # Proved
///
/// - `seed.new ≡ seed_at_moment seed.old secs nanos`
/// - `result ≡ word_at_moment seed.old secs nanos`
pub fn rapidrng_time(seed: &mut u64, secs: u64, nanos: u32) -> u64 {
    prove!(nanos < 1_000_000_000, "the nanoseconds must be less than a second");
    let entropy = secs % 0x1_0000_0000 * 0x1_0000_0000 + nanos as u64;
    let moment = rapid_mix::<false>(entropy ^ STEP, *seed ^ MASK);
    let made = rapid_mix::<false>(moment ^ STEP, MOMENT_MASK);
    *seed = made;
    rapid_mix::<false>(made, made ^ MASK)
}

/// A generator with a state of 64 bits, one of 2^64 on a single cycle.
///
/// ```
/// use rapidhash::rng::RapidRng;
///
/// let mut rng = RapidRng::new(42);
/// let dice = rng.next() % 6 + 1;
/// ```
#[derive(Clone, Copy, Debug, PartialEq, Eq, PartialOrd, Ord, Hash)]
pub struct RapidRng {
    seed: u64,
}

impl RapidRng {
    /// Returns a generator whose state is `seed`. All generators share one cycle.
    ///
    /// # Proved
    ///
    /// - `result ≡ seed`
    #[inline]
    #[must_use]
    pub const fn new(seed: u64) -> RapidRng {
        RapidRng { seed }
    }

    /// Returns a generator whose state is what [`rapidrng_time`] returns for a time and a fixed
    /// seed.
    ///
    /// # Proved
    ///
    /// - `result ≡ word_at_moment v1_number secs nanos`
    #[must_use]
    pub fn from_moment(time: Duration) -> RapidRng {
        let mut seed = MOMENT_SEED;
        RapidRng::new(rapidrng_time(&mut seed, time.as_secs(), time.subsec_nanos()))
    }

    /// Returns the state as a number.
    const fn number(&self) -> u64 {
        self.seed
    }

    /// Returns the state as little-endian bytes.
    #[inline]
    #[must_use]
    pub const fn state(&self) -> [u8; 8] {
        self.number().to_le_bytes()
    }

    /// Returns the next word.
    ///
    /// # Proved
    ///
    /// - `self.new ≡ state_after self.old 1`
    /// - `result ≡ word_at self.old 1`
    #[inline]
    pub fn next(&mut self) -> u64 {
        rapidrng_fast(&mut self.seed)
    }

    /// Returns how many steps lead from this state to the other's. There is always such a number
    /// below 2^64, and any other number of steps that leads there is equal to it modulo 2^64.
    ///
    /// ```
    /// use rapidhash::rng::RapidRng;
    ///
    /// let start = RapidRng::new(42);
    /// let mut later = start;
    /// later.next();
    /// assert_eq!(start.steps_to(&later), 1);
    /// ```
    ///
    /// # Proved
    ///
    /// - `result < 2 ^ 64`
    /// - `state_after self.now result ≡ other.now`
    /// - `(steps : ℕ) → state_after self.now steps ≡ other.now → steps % 2 ^ 64 ≡ result`
    #[must_use]
    pub const fn steps_to(&self, other: &RapidRng) -> u64 {
        let distance = other.seed.wrapping_sub(self.seed);
        distance.wrapping_mul(INVERSE)
    }
}
