//! Streams of the default secrets.

use crate::v3::{DEFAULT_RAPID_SECRETS, RapidStreamHasherLanes};

impl<const LANES: usize, const AVALANCHE: bool, const PROTECTED: bool>
    RapidStreamHasherLanes<'_, LANES, AVALANCHE, PROTECTED>
{
    /// A hasher of no bytes yet with the default seed and secrets.
    ///
    /// ```
    /// use rapidhash::v3::{rapidhash_v3, RapidStreamHasherV3};
    /// use std::sync::Mutex;
    ///
    /// static LOG: Mutex<RapidStreamHasherV3> = Mutex::new(RapidStreamHasherV3::DEFAULT);
    /// LOG.lock().unwrap().write(b"hello");
    /// assert_eq!(LOG.lock().unwrap().finish(), rapidhash_v3(b"hello"));
    /// ```
    pub const DEFAULT: Self = Self::new(&DEFAULT_RAPID_SECRETS);
}

/// Returns [`RapidStreamHasherLanes::DEFAULT`].
impl<const LANES: usize, const AVALANCHE: bool, const PROTECTED: bool> Default
    for RapidStreamHasherLanes<'_, LANES, AVALANCHE, PROTECTED>
{
    #[inline]
    fn default() -> Self {
        Self::DEFAULT
    }
}
