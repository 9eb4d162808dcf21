//! The generator, with the system's clock in place of a time that the caller passes.

/// The state from which a generator without a clock starts.
const START: u64 = 0xbdd8_9aa9_8270_4029;

#[cfg(all(
    feature = "std",
    not(any(miri, target_os = "zkvm", all(target_family = "wasm", target_os = "unknown")))
))]
pub use clock::rapidrng_time;

/// Steps the state, and returns the word of the new one.
#[inline]
#[deprecated(since = "4.5.0", note = "the crate `rapidrand` has this generator now")]
pub fn rapidrng_fast(seed: &mut u64) -> u64 {
    proved::rng::rapidrng_fast(seed)
}

/// Steps the state in the same way, and returns another word of the new one.
#[inline]
#[deprecated(since = "4.5.0", note = "the crate `rapidrand` has this generator now")]
pub fn rapidrng_fast_not_portable(seed: &mut u64) -> u64 {
    proved::rng::rapidrng_fast_not_portable(seed)
}

#[cfg(all(feature = "std", not(any(miri, target_os = "zkvm", all(target_family = "wasm", target_os = "unknown")))))]
mod clock {
    /// Makes a new seed from the old one and the present time, and returns the new seed's word. Systems without a clock
    /// do not have this function.
    ///
    /// # Panics
    ///
    /// If the system's clock is before 1970.
    #[deprecated(since = "4.5.0", note = "the crate `rapidrand` has this generator now")]
    pub fn rapidrng_time(seed: &mut u64) -> u64 {
        let since = std::time::SystemTime::UNIX_EPOCH.elapsed();
        let time = since.expect("the system's clock is before 1970");
        proved::rng::rapidrng_time(seed, time.as_secs(), time.subsec_nanos())
    }

    /// Returns the state of a new generator.
    pub(super) fn start() -> u64 {
        rapidrng_time(&mut { super::START })
    }
}

#[cfg(not(all(
    feature = "std",
    not(any(miri, target_os = "zkvm", all(target_family = "wasm", target_os = "unknown")))
)))]
mod clock {
    /// Returns the state of a new generator.
    pub(super) fn start() -> u64 {
        super::START
    }
}

/// A generator whose state is a single word.
#[derive(Clone, Copy, Debug, PartialEq, Eq, PartialOrd, Ord, Hash)]
#[deprecated(since = "4.5.0", note = "the crate `rapidrand` has this generator now")]
pub struct RapidRng {
    seed: u64,
}

impl RapidRng {
    /// Returns a generator whose state is `seed`.
    #[inline]
    #[must_use]
    pub fn new(seed: u64) -> Self {
        Self { seed }
    }

    /// Returns the state as little-endian bytes.
    #[inline]
    #[must_use]
    pub fn state(&self) -> [u8; 8] {
        self.seed.to_le_bytes()
    }

    /// Returns the next word.
    #[allow(clippy::should_implement_trait)]
    #[inline]
    pub fn next(&mut self) -> u64 {
        rapidrng_fast(&mut self.seed)
    }
}

impl Default for RapidRng {
    /// Returns a generator whose state comes from the present time, or without a clock from a constant.
    fn default() -> Self {
        Self::new(clock::start())
    }
}

/// Implements the traits of a version of `rand_core`, with the methods that only this version has.
#[cfg(any(feature = "rng", feature = "rng_06"))]
macro_rules! generates {
    ($rand_core:ident $($more:item)*) => {
        impl $rand_core::RngCore for RapidRng {
            #[inline]
            fn next_u32(&mut self) -> u32 {
                self.next() as u32
            }

            #[inline]
            fn next_u64(&mut self) -> u64 {
                self.next()
            }

            #[inline]
            fn fill_bytes(&mut self, bytes: &mut [u8]) {
                $rand_core::impls::fill_bytes_via_next(self, bytes);
            }

            $($more)*
        }

        impl $rand_core::SeedableRng for RapidRng {
            type Seed = [u8; 8];

            #[inline]
            fn from_seed(seed: [u8; 8]) -> Self {
                Self::new(u64::from_le_bytes(seed))
            }

            #[inline]
            fn seed_from_u64(seed: u64) -> Self {
                Self::new(seed)
            }
        }
    };
}

#[cfg(feature = "rng")]
generates!(rand_core);
#[cfg(feature = "rng_06")]
generates! { rand_core_06
    #[inline]
    fn try_fill_bytes(&mut self, bytes: &mut [u8]) -> Result<(), rand_core_06::Error> {
        rand_core_06::RngCore::fill_bytes(self, bytes);
        Ok(())
    }
}
