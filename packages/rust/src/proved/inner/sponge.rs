// Made by scripts/rust_crate from crates/rapidhash/src/inner/sponge.rt: change that file.

//! The integers that wait to be mixed in.

/// Up to 128 bits that wait to be mixed in.
#[derive(Clone, Copy)]
pub(crate) struct Sponge {
    pub(crate) bits: u128,
    pub(crate) width: u8,
}

impl Sponge {
    /// Returns a sponge without bits.
    #[inline(always)]
    pub(crate) const fn empty() -> Sponge {
        Sponge { bits: 0, width: 0 }
    }

    /// Returns a sponge with a single integer.
    #[inline(always)]
    pub(crate) fn of(value: u64, width: u8) -> Sponge {
        Sponge { bits: value as u128, width }
    }

    /// Adds an integer after the pending ones.
    #[inline(always)]
    pub(crate) fn with(self, value: u64, width: u8) -> Sponge {
        Sponge { bits: self.bits | ((value as u128) << self.width), width: self.width + width }
    }
}
