//! Keys of several fields: one hash for each key, the same in every language.
//!
//! A field is nothing (`None`, SQL's NULL), an integer of up to 64 bits, or bytes. The hash of a key is V3 of its
//! fields' encodings. Different keys have different encodings: `("ab", "c")` is not `("a", "bc")`, and `None` is
//! neither 0 nor an empty text. A `char` is its text. For other values there are [`Day`], [`Time`], [`Uuid`],
//! `Decimal` (with the feature `std`) and [`List`]. Floats are not fields, but their bits by [`float_bits`] are.
//!
//! ```
//! use rapidhash::key;
//! use rapidhash::shards::shard;
//!
//! let name: Option<&str> = None;
//! let shard = shard(key::hash(&("user", 4711, name)), 64);
//! assert_eq!(key::hash(&("user", 4711, name)), 14742763072502883419);
//! ```

#[cfg(feature = "std")]
mod decimal;
mod items;
mod types;

#[cfg(feature = "std")]
pub use decimal::Decimal;
pub use items::{KeyElement, KeyItem, List};
pub use types::{Day, FieldError, Time, Uuid, float_bits};

pub use crate::proved::key::Field;
#[doc(hidden)]
pub use crate::proved::key::{
    rapidhash_v3_key, rapidhash_v3_key_seeded, write_bytes, write_field, write_integer, write_nothing,
};
use crate::v3::{RapidSecrets, RapidStreamHasherLanes, RapidStreamHasherV3};
#[cfg(feature = "std")]
use std::{
    borrow::{Cow, ToOwned},
    rc::Rc,
    sync::Arc,
};

/// A value that is a single field of a key.
#[cfg_attr(
    not(rapidhash_no_diagnostic),
    diagnostic::on_unimplemented(
        message = "`{Self}` cannot be a field of a key",
        note = "a field is an integer of up to 64 bits, a `bool`, a text, bytes, a type of `rapidhash::key`, or an \
                `Option` of one, and a key is a field, a `char`, a `List` of these, or a tuple of up to twelve; pass a \
                float by `key::float_bits(number)?`"
    )
)]
pub trait KeyField {
    /// Returns the field. A text is its UTF-8 bytes.
    fn field(&self) -> Field<'_>;
}

/// A value that is the fields of a key, in order: a [`KeyElement`], a tuple of up to twelve, or a slice of [`Field`].
///
/// ```
/// use rapidhash::key::{self, Field, Key, KeyField};
///
/// struct User {
///     name: String,
///     id: Option<u64>,
/// }
///
/// impl Key for User {
///     fn fields(&self, each: &mut dyn FnMut(Field<'_>)) {
///         each(self.name.field());
///         each(self.id.field());
///     }
/// }
///
/// let user = User { name: "user".to_owned(), id: Some(4711) };
/// assert_eq!(key::hash(&user), key::hash(&("user", 4711)));
/// ```
#[cfg_attr(
    not(rapidhash_no_diagnostic),
    diagnostic::on_unimplemented(
        message = "`{Self}` cannot be a key",
        note = "a field is an integer of up to 64 bits, a `bool`, a text, bytes, a type of `rapidhash::key`, or an \
                `Option` of one, and a key is a field, a `char`, a `List` of these, or a tuple of up to twelve; pass a \
                float by `key::float_bits(number)?`"
    )
)]
pub trait Key {
    /// Passes each field to a function, in order.
    fn fields(&self, each: &mut dyn FnMut(Field<'_>));
}

/// Returns the hash of a key, with the default seed and secrets. It allocates nothing.
///
/// ```
/// use rapidhash::key;
///
/// assert_eq!(key::hash(&("user", 4711, None::<&str>)), 14742763072502883419);
/// ```
#[must_use]
#[inline]
pub fn hash<K: Key + ?Sized>(key: &K) -> u64 {
    hash_seeded(key, RapidSecrets::default_ref())
}

/// Returns the hash of a key, with the caller's seed and secrets. It allocates nothing.
///
/// ```
/// use rapidhash::{key, v3::RapidSecrets};
///
/// assert_eq!(key::hash_seeded(&("user", 4711, None::<i64>), &RapidSecrets::seed_cpp(7)), 4558979304646042975);
/// ```
#[must_use]
#[inline]
pub fn hash_seeded<K: Key + ?Sized>(key: &K, secrets: &RapidSecrets) -> u64 {
    let mut hasher = RapidStreamHasherV3::new(secrets);
    write(key, &mut hasher);
    hasher.finish()
}

/// Adds the fields of a key to the message of a stream hasher, which may have any number of lanes and any options.
///
/// ```
/// use rapidhash::key;
/// use rapidhash::v3::{DEFAULT_RAPID_SECRETS, RapidStreamHasherInlineNano, RapidStreamHasherV3};
///
/// let mut rows = RapidStreamHasherV3::new(&DEFAULT_RAPID_SECRETS);
/// key::write(&("user", 4711), &mut rows);
/// assert_eq!(rows.finish(), key::hash(&("user", 4711)));
///
/// let mut nano = RapidStreamHasherInlineNano::<true, false>::new(&DEFAULT_RAPID_SECRETS);
/// key::write(&("user", 4711), &mut nano);
/// assert_eq!(nano.finish(), rows.finish()); // They differ above 48 bytes.
/// ```
#[inline]
pub fn write<K: Key + ?Sized, const LANES: usize, const AVALANCHE: bool, const PROTECTED: bool>(
    key: &K,
    hasher: &mut RapidStreamHasherLanes<'_, LANES, AVALANCHE, PROTECTED>,
) {
    key.fields(&mut |field| write_field(hasher, field));
}

impl KeyField for Field<'_> {
    fn field(&self) -> Field<'_> {
        *self
    }
}

macro_rules! integers {
    ($($type:ty)*) => { $(
        /// A negative integer is its two's complement of 64 bits, and an unsigned one of 64 bits is itself.
        impl KeyField for $type {
            fn field(&self) -> Field<'_> {
                Field::Integer(*self as u64)
            }
        }
    )* };
}

integers!(i8 i16 i32 i64 isize u8 u16 u32 u64 usize);

macro_rules! not_zero {
    ($($type:ident)*) => { $(
        impl KeyField for std::num::$type {
            fn field(&self) -> Field<'_> {
                Field::Integer(self.get() as u64)
            }
        }
    )* };
}

not_zero!(NonZeroI8 NonZeroI16 NonZeroI32 NonZeroI64 NonZeroIsize);
not_zero!(NonZeroU8 NonZeroU16 NonZeroU32 NonZeroU64 NonZeroUsize);

macro_rules! bytes {
    ($($(#[$when:meta])* $type:ty => $bytes:ident)*) => { $(
        $(#[$when])*
        impl KeyField for $type {
            fn field(&self) -> Field<'_> {
                Field::Bytes(self.$bytes())
            }
        }
    )* };
}

/// A bool is 0 or 1.
impl KeyField for bool {
    fn field(&self) -> Field<'_> {
        Field::Integer(u64::from(*self))
    }
}

bytes! {
    str => as_bytes
    #[cfg(feature = "std")]
    String => as_bytes
    [u8] => as_ref
    #[cfg(feature = "std")]
    Vec<u8> => as_slice
}

impl<const COUNT: usize> KeyField for [u8; COUNT] {
    fn field(&self) -> Field<'_> {
        Field::Bytes(self)
    }
}

/// `None` is nothing, and so is `Some(None)`.
impl<F: KeyField> KeyField for Option<F> {
    fn field(&self) -> Field<'_> {
        self.as_ref().map_or(Field::Nothing, KeyField::field)
    }
}

macro_rules! pointers {
    ($($(#[$when:meta])* $type:ty)*) => { $(
        $(#[$when])*
        impl<F: KeyField + ?Sized> KeyField for $type {
            fn field(&self) -> Field<'_> {
                F::field(self)
            }
        }
    )* };
}

pointers! {
    &F
    #[cfg(feature = "std")]
    Box<F>
    #[cfg(feature = "std")]
    Rc<F>
    #[cfg(feature = "std")]
    Arc<F>
}

#[cfg(feature = "std")]
impl<F: KeyField + ToOwned + ?Sized> KeyField for Cow<'_, F> {
    fn field(&self) -> Field<'_> {
        F::field(self)
    }
}

impl<F: KeyField + ?Sized> Key for F {
    #[inline]
    fn fields(&self, each: &mut dyn FnMut(Field<'_>)) {
        each(self.field());
    }
}
