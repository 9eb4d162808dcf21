// Made by scripts/rust_crate from crates/rapidhash/src/inner/hasher.rt: change that file.

//! The hasher.

use crate::held::Secrets;
use crate::inner::sponge::Sponge;
use rapidhash_portable::in_memory::core_hash;
use rapidhash_portable::util::rapid_mix;
use rapidhash_portable::v3::{DEFAULT_RAPID_SECRETS, RapidSecrets};
use std::hash::Hasher;

/// A hasher of bytes and integers, with every option. Most programs name it by `fast::RapidHasher`
/// or `quality::RapidHasher`.
///
/// The inherent methods, such as [`RapidHasher::write_u8`], pack integers. The trait's integer writes are the
/// same.
///
/// ```
/// use rapidhash::fast::RapidHasher;
/// use std::hash::Hasher;
///
/// let mut hasher = RapidHasher::new(0);
/// hasher.write_u64(4711);
/// hasher.write(b"user");
/// let hash = hasher.finish();
/// ```
#[derive(Clone, Copy)]
pub struct RapidHasher<
    's,
    const AVALANCHE: bool,
    const SPONGE: bool,
    const COMPACT: bool = false,
    const PROTECTED: bool = false,
> {
    seed: u64,
    secrets: Secrets<'s>,
    sponge: Sponge,
}

impl<'s, const AVALANCHE: bool, const SPONGE: bool, const COMPACT: bool, const PROTECTED: bool>
    RapidHasher<'s, AVALANCHE, SPONGE, COMPACT, PROTECTED>
{
    /// The number that `default_const` and `Default` pass to `new`, for programs that name it.
    pub const DEFAULT_SEED: u64 = 0;

    /// Returns a hasher of the default secrets, and of a seed derived from `seed` as
    /// `v3::RapidSecrets::seed_cpp` makes it.
    ///
    /// ```
    /// use rapidhash::fast::RapidHasher;
    /// use std::hash::Hasher;
    ///
    /// let mut hasher = RapidHasher::new(0x1234_5678);
    /// hasher.write_u32(7);
    /// let hash = hasher.finish();
    /// ```
    ///
    /// # Proved
    ///
    /// - `secrets_of_hasher result ≡ default_secrets`
    /// - `Represents result (cpp_seeded seed 2) []`
    #[inline(always)]
    #[must_use]
    pub const fn new(seed: u64) -> Self {
        RapidHasher::from_parts(RapidSecrets::seed_of_word(seed), Secrets::new(&DEFAULT_RAPID_SECRETS.secrets))
    }

    /// Returns a hasher of the default seed and the default secrets: [`RapidHasher::new`] of 0.
    ///
    /// # Proved
    ///
    /// - `secrets_of_hasher result ≡ default_secrets`
    /// - `Represents result default_seed []`
    #[inline(always)]
    #[must_use]
    pub const fn default_const() -> Self {
        RapidHasher::new(0)
    }

    /// Returns a hasher with the given seed and secrets.
    #[inline(always)]
    pub(crate) const fn from_parts(seed: u64, secrets: Secrets<'s>) -> Self {
        RapidHasher { seed, secrets, sponge: Sponge::empty() }
    }

    /// Returns the seed after a step on 128 bits.
    #[inline(always)]
    fn mixed(&self, wide: u128) -> u64 {
        let low = (wide % 0x1_0000_0000_0000_0000) as u64;
        let high = (wide / 0x1_0000_0000_0000_0000) as u64;
        rapid_mix::<PROTECTED>(low ^ self.seed, high ^ self.secrets[0])
    }

    /// Absorbs an integer of `width` bits.
    #[inline(always)]
    fn write_number(&mut self, value: u64, width: u8) {
        if SPONGE {
            if self.sponge.width <= 128 - width {
                self.sponge = self.sponge.with(value, width);
            } else {
                self.seed = self.mixed(self.sponge.bits);
                self.sponge = Sponge::of(value, width);
            }
        } else {
            self.seed = rapid_mix::<PROTECTED>(value ^ self.secrets[0], value ^ self.seed);
        }
    }
}

mod integers;

impl<'s, const AVALANCHE: bool, const SPONGE: bool, const COMPACT: bool, const PROTECTED: bool> Hasher
    for RapidHasher<'s, AVALANCHE, SPONGE, COMPACT, PROTECTED>
{
    forward_integers!();

    /// Absorbs bytes in one step. The integers that wait in the sponge stay there.
    #[inline(always)]
    fn write(&mut self, bytes: &[u8]) {
        self.seed = core_hash::<AVALANCHE, COMPACT, PROTECTED>(bytes, self.seed, &self.secrets);
    }

    /// Returns the hash of what was absorbed so far. It changes nothing: further writes may follow.
    #[inline(always)]
    fn finish(&self) -> u64 {
        let mut last = self.seed;
        if self.sponge.width > 0 {
            last = self.mixed(self.sponge.bits);
        }
        if AVALANCHE {
            last = rapid_mix::<PROTECTED>(last, DEFAULT_RAPID_SECRETS.secrets[1]);
        }
        last
    }
}

impl<'s, const AVALANCHE: bool, const SPONGE: bool, const COMPACT: bool, const PROTECTED: bool> Default
    for RapidHasher<'s, AVALANCHE, SPONGE, COMPACT, PROTECTED>
{
    /// Returns [`RapidHasher::default_const`].
    #[inline(always)]
    fn default() -> Self {
        RapidHasher::default_const()
    }
}
