// Made by scripts/rust_crate from crates/rapidhash/src/inner/hasher/integers.rt: change that file.

//! The hasher's own writes of integers.

use super::RapidHasher;
use crate::macros::ToUnsigned;

impl<'s, const AVALANCHE: bool, const SPONGE: bool, const COMPACT: bool, const PROTECTED: bool>
    RapidHasher<'s, AVALANCHE, SPONGE, COMPACT, PROTECTED>
{
    /// Absorbs an integer of 8 bits. With `SPONGE`, two integers of equal width that share a block
    /// hash as the joined one: `write_u8(2)` and `write_u8(1)` as `write_u16(258)`.
    ///
    /// ```
    /// use rapidhash::fast::RapidHasher;
    /// use std::hash::Hasher;
    ///
    /// let (mut parts, mut whole) = (RapidHasher::default(), RapidHasher::default());
    /// parts.write_u8(2);
    /// parts.write_u8(1);
    /// whole.write_u16(258);
    /// assert_eq!(parts.finish(), whole.finish());
    /// ```
    ///
    /// # Proved
    ///
    /// - `Absorbs self.old self.new (Num 8 value)`
    #[inline(always)]
    #[doc(hidden)]
    pub fn write_u8(&mut self, value: u8) {
        self.write_number(value as u64, 8);
    }

    /// Absorbs an integer of 16 bits.
    ///
    /// # Proved
    ///
    /// - `Absorbs self.old self.new (Num 16 value)`
    #[inline(always)]
    #[doc(hidden)]
    pub fn write_u16(&mut self, value: u16) {
        self.write_number(value as u64, 16);
    }

    /// Absorbs an integer of 32 bits.
    ///
    /// # Proved
    ///
    /// - `Absorbs self.old self.new (Num 32 value)`
    #[inline(always)]
    #[doc(hidden)]
    pub fn write_u32(&mut self, value: u32) {
        self.write_number(value as u64, 32);
    }

    /// Absorbs an integer of 64 bits.
    ///
    /// # Proved
    ///
    /// - `Absorbs self.old self.new (Num 64 value)`
    #[inline(always)]
    #[doc(hidden)]
    pub fn write_u64(&mut self, value: u64) {
        self.write_number(value, 64);
    }

    /// Absorbs an integer of 64 bits, as [`RapidHasher::write_u64`], on every machine.
    ///
    /// # Proved
    ///
    /// - `Absorbs self.old self.new (Num 64 value)`
    #[inline(always)]
    #[doc(hidden)]
    pub fn write_usize(&mut self, value: usize) {
        self.write_number(value as u64, 64);
    }

    /// Absorbs a signed integer of 8 bits, by its bits.
    ///
    /// # Proved
    ///
    /// - `Absorbs self.old self.new (Num 8 (cast_unsigned w8 value))`
    #[inline(always)]
    #[doc(hidden)]
    pub fn write_i8(&mut self, value: i8) {
        self.write_number(value.to_unsigned() as u64, 8);
    }

    /// Absorbs a signed integer of 16 bits, by its bits.
    ///
    /// # Proved
    ///
    /// - `Absorbs self.old self.new (Num 16 (cast_unsigned w16 value))`
    #[inline(always)]
    #[doc(hidden)]
    pub fn write_i16(&mut self, value: i16) {
        self.write_number(value.to_unsigned() as u64, 16);
    }

    /// Absorbs a signed integer of 32 bits, by its bits.
    ///
    /// # Proved
    ///
    /// - `Absorbs self.old self.new (Num 32 (cast_unsigned w32 value))`
    #[inline(always)]
    #[doc(hidden)]
    pub fn write_i32(&mut self, value: i32) {
        self.write_number(value.to_unsigned() as u64, 32);
    }

    /// Absorbs a signed integer of 64 bits, by its bits.
    ///
    /// # Proved
    ///
    /// - `Absorbs self.old self.new (Num 64 (cast_unsigned w64 value))`
    #[inline(always)]
    #[doc(hidden)]
    pub fn write_i64(&mut self, value: i64) {
        self.write_number(value.to_unsigned(), 64);
    }

    /// Absorbs a signed integer of 64 bits, by its bits, on every machine.
    ///
    /// # Proved
    ///
    /// - `Absorbs self.old self.new (Num 64 (cast_unsigned w64 value))`
    #[inline(always)]
    #[doc(hidden)]
    pub fn write_isize(&mut self, value: isize) {
        self.write_number((value as i64).to_unsigned(), 64);
    }

    /// Absorbs 128 bits in one step. The integers that wait in the sponge stay there.
    ///
    /// # Proved
    ///
    /// - `Absorbs self.old self.new (Wide value)`
    #[inline(always)]
    #[doc(hidden)]
    pub fn write_u128(&mut self, value: u128) {
        self.seed = self.mixed(value);
    }

    /// Absorbs 128 bits in one step, as [`RapidHasher::write_u128`] does.
    ///
    /// # Proved
    ///
    /// - `Absorbs self.old self.new (Wide (cast_unsigned w128 value))`
    #[inline(always)]
    #[doc(hidden)]
    pub fn write_i128(&mut self, value: i128) {
        self.write_u128(value.to_unsigned());
    }
}
