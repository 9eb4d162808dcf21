//! Definitions for calls in the proved source that Rust expresses differently.

/// Checks a precondition. One of a const parameter is checked by the compiler, which refuses the call; any other
/// panics. Rattle proves that each caller meets it.
macro_rules! prove {
    (MINOR <= $most:literal, $what:literal) => {
        prove!(MINOR: u8, MINOR <= $most, $what)
    };
    (SIZE > $least:literal, $what:literal) => {
        prove!(SIZE: usize, SIZE > $least, $what)
    };
    (LANES == $one:literal || LANES == $two:literal || LANES == $three:literal, $what:literal) => {
        prove!(LANES: usize, LANES == $one || LANES == $two || LANES == $three, $what)
    };
    ($parameter:ident: $integer:ty, $holds:expr, $what:literal) => {{
        // Rust has constants in functions from 1.79 on.
        struct Check<const $parameter: $integer>;

        impl<const $parameter: $integer> Check<$parameter> {
            const PASSED: () = assert!($holds, $what);
        }

        Check::<$parameter>::PASSED
    }};
    ($holds:expr, $what:literal) => {
        assert!($holds, $what)
    };
}

/// Defines a function that is `const` if the compiler allows it: from Rust 1.83 on, which `build.rs` detects. Before,
/// constants had no mutable references.
macro_rules! const_fn {
    ($(#[$attribute:meta])* $visibility:vis const fn $($rest:tt)*) => {
        #[cfg(not(rapidhash_old_const))]
        $(#[$attribute])*
        $visibility const fn $($rest)*

        #[cfg(rapidhash_old_const)]
        $(#[$attribute])*
        $visibility fn $($rest)*
    };
}

/// Returns the `N` bytes from `offset` on, which must lie in `bytes`.
#[cfg(not(rapidhash_old_const))]
#[inline(always)]
pub(crate) const fn array<const N: usize>(bytes: &[u8], offset: usize) -> [u8; N] {
    *bytes.split_at(offset).1.first_chunk().unwrap()
}

/// Returns the `N` bytes from `offset` on, which must lie in `bytes`.
#[cfg(rapidhash_old_const)]
#[inline(always)]
pub(crate) fn array<const N: usize>(bytes: &[u8], offset: usize) -> [u8; N] {
    bytes[offset..offset + N].try_into().unwrap()
}

const_fn! {
/// Returns the little-endian number of the 8 bytes from `offset` on, which must lie in `bytes`. A build without
/// optimization indexes them, because its calls take longer.
#[inline(always)]
pub(crate) const fn word(bytes: &[u8], offset: usize) -> u64 {
    if cfg!(debug_assertions) {
        let (b, i) = (bytes, offset);
        u64::from_le_bytes([b[i], b[i + 1], b[i + 2], b[i + 3], b[i + 4], b[i + 5], b[i + 6], b[i + 7]])
    } else {
        u64::from_le_bytes(array(bytes, offset))
    }
}
}

/// Defines the integer writes of `Hasher`, each with the proved method of the same name. Through
/// them, `derive(Hash)` and maps reach the sponge, as in the crate `rapidhash`.
macro_rules! forward_integers {
    () => {
        forward_integers! {
            write_u8 u8, write_u16 u16, write_u32 u32, write_u64 u64, write_u128 u128, write_usize usize,
            write_i8 i8, write_i16 i16, write_i32 i32, write_i64 i64, write_i128 i128, write_isize isize
        }
    };
    ($($name:ident $integer:ty),*) => {
        $(
            #[inline(always)]
            fn $name(&mut self, value: $integer) {
                // An inherent method takes precedence over a trait's.
                Self::$name(self, value);
            }
        )*
    };
}

/// Converts a signed integer to the unsigned integer with the same bits.
pub(crate) trait ToUnsigned {
    /// The type of the unsigned integer.
    type Unsigned;

    /// Returns the unsigned integer with the same bits.
    fn to_unsigned(self) -> Self::Unsigned;
}

/// Implements `ToUnsigned` with a cast.
macro_rules! to_unsigned {
    ($($signed:ty as $unsigned:ty),*) => {
        $(
            impl ToUnsigned for $signed {
                type Unsigned = $unsigned;

                #[inline(always)]
                fn to_unsigned(self) -> $unsigned {
                    self as $unsigned
                }
            }
        )*
    };
}

to_unsigned! { i8 as u8, i16 as u16, i32 as u32, i64 as u64, i128 as u128 }
