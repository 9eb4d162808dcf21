// Made by scripts/rust_crate from crates/rapidhash_portable/src/util.rt: change that file.

//! Little-endian reads and the folded multiply.
//!
//! They are marked `inline`, not `inline(always)`: the compiler inlines them anyway, and its cost
//! model then counts a call, not the whole body, when it decides whether to inline a caller.

/// Every other bit, from the highest on: the avalanche of V2, V3 and the in-memory core mixes it
/// into the last product.
pub(crate) const ALTERNATING_BITS: u64 = 0xaaaa_aaaa_aaaa_aaaa;

/// Returns the 128-bit product of `a` and `b` as its low and its high 64 bits. With `PROTECTED`
/// each half is mixed with a factor by XOR: the low half with `a`, the high half with `b`.
///
/// ```
/// use rapidhash::util::rapid_mum;
///
/// assert_eq!(rapid_mum::<false>(u64::MAX, 2), (u64::MAX - 1, 1));
/// ```
///
/// # Proved
///
/// - `result ≡ multiply PROTECTED a b`
#[inline]
#[must_use]
pub const fn rapid_mum<const PROTECTED: bool>(a: u64, b: u64) -> (u64, u64) {
    let product = a as u128 * b as u128;
    let low = (product % 0x1_0000_0000_0000_0000) as u64;
    let high = (product / 0x1_0000_0000_0000_0000) as u64;
    if PROTECTED { (a ^ low, b ^ high) } else { (low, high) }
}

/// Returns the two numbers of [`rapid_mum`], folded into one by XOR.
///
/// ```
/// use rapidhash::util::rapid_mix;
///
/// assert_eq!(rapid_mix::<false>(u64::MAX, 2), u64::MAX);
/// ```
///
/// # Proved
///
/// - `result ≡ mix PROTECTED a b`
#[inline]
#[must_use]
pub const fn rapid_mix<const PROTECTED: bool>(a: u64, b: u64) -> u64 {
    let (low, high) = rapid_mum::<PROTECTED>(a, b);
    low ^ high
}

const_fn! {
/// Returns the little-endian number of the 8 bytes from `offset` on.
///
/// ```
/// use rapidhash::util::read_u64;
///
/// assert_eq!(read_u64(&[9, 1, 2, 0, 0, 0, 0, 0, 0], 1), 513);
/// ```
///
/// # Panics
///
/// If the 8 bytes do not lie in `bytes`.
///
/// # Proved
///
/// - `result ≡ word64 bytes.now offset`
#[inline]
#[must_use]
pub const fn read_u64(bytes: &[u8], offset: usize) -> u64 {
    crate::macros::word(bytes, offset)
}
}

const_fn! {
/// Returns the little-endian number of the 4 bytes from `offset` on.
///
/// ```
/// use rapidhash::util::read_u32;
///
/// assert_eq!(read_u32(&[9, 1, 2, 0, 0], 1), 513);
/// ```
///
/// # Panics
///
/// If the 4 bytes do not lie in `bytes`.
///
/// # Proved
///
/// - `result ≡ word32 bytes.now offset`
#[inline]
#[must_use]
pub const fn read_u32(bytes: &[u8], offset: usize) -> u32 {
    u32::from_le_bytes(crate::macros::array(bytes, offset))
}
}

const_fn! {
/// Returns two 4-byte numbers in a `u64`: the number at `top` in the upper half, the number at
/// `bot` in the lower half.
///
/// ```
/// use rapidhash::util::read_u32_combined;
///
/// assert_eq!(read_u32_combined(&[1, 0, 0, 0, 2, 0, 0, 0], 0, 4), (1 << 32) + 2);
/// ```
///
/// # Panics
///
/// If one of the two does not lie in `bytes`.
///
/// # Proved
///
/// - `result ≡ combined bytes.now top bot`
#[inline]
#[must_use]
pub const fn read_u32_combined(bytes: &[u8], top: usize, bot: usize) -> u64 {
    (read_u32(bytes, top) as u64) << 32 | read_u32(bytes, bot) as u64
}
}
