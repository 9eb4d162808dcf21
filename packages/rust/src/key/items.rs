//! Keys of more than a field: slices and tuples, and what a tuple takes beside fields, chars and lists.

use super::{Field, Key, KeyField};

/// A value that is an item of a list, and an element of a tuple: a [`KeyField`], or a `char`.
///
/// A type of yours whose field is made while it is hashed, and so cannot be borrowed, is an item by a [`Key`] that
/// passes exactly one field:
///
/// ```
/// use rapidhash::key::{self, Field, Key, KeyField, KeyItem, List};
///
/// struct Version(u8, u8);
///
/// impl Key for Version {
///     fn fields(&self, each: &mut dyn FnMut(Field<'_>)) {
///         each(format!("{}.{}", self.0, self.1).field());
///     }
/// }
///
/// impl KeyItem for Version {}
///
/// assert_eq!(key::hash(&("app", List(&[Version(1, 2)]))), key::hash(&("app", List(&["1.2"]))));
/// ```
pub trait KeyItem: Key {}

/// A value that is an element of a tuple that is a key: a [`KeyItem`], or a [`List`].
pub trait KeyElement: Key {}

impl<F: KeyField + ?Sized> KeyItem for F {}
impl<I: KeyItem + ?Sized> KeyElement for I {}

/// A char is its text.
impl Key for char {
    #[inline]
    fn fields(&self, each: &mut dyn FnMut(Field<'_>)) {
        each(self.encode_utf8(&mut [0; 4]).field());
    }
}

/// A list as an element of a key: the number of items, and then each item.
///
/// The items are a slice of a [`KeyItem`]. An empty list is the number 0, and `None` instead of a list is nothing.
///
/// ```
/// use rapidhash::key::{self, List};
///
/// let tags = vec!["a".to_owned(), "bc".to_owned()];
/// assert_eq!(key::hash(&("user", List(&tags))), key::hash(&("user", 2, "a", "bc")));
/// ```
///
/// A list in a list does not compile:
///
/// ```compile_fail,E0277
/// use rapidhash::key::{self, List};
///
/// key::hash(&List(&[List(&[1]), List(&[2])]));
/// ```
#[derive(Debug)]
pub struct List<'a, T>(pub &'a [T]);

impl<T> Clone for List<'_, T> {
    fn clone(&self) -> Self {
        *self
    }
}

impl<T> Copy for List<'_, T> {}

impl<T: KeyItem> Key for List<'_, T> {
    #[inline]
    fn fields(&self, each: &mut dyn FnMut(Field<'_>)) {
        each(self.0.len().field());
        for item in self.0 {
            item.fields(each);
        }
    }
}

impl KeyItem for char {}
impl<T: KeyItem> KeyElement for List<'_, T> {}

macro_rules! pointers {
    ($(($($generics:tt)*) $type:ty: $kind:ident)*) => { $(
        impl<$($generics)*> Key for $type {
            #[inline]
            fn fields(&self, each: &mut dyn FnMut(Field<'_>)) {
                (**self).fields(each);
            }
        }

        impl<$($generics)*> $kind for $type {}
    )* };
}

pointers! {
    () &char: KeyItem
    () &Option<char>: KeyItem
    (T: KeyItem) &List<'_, T>: KeyElement
}

macro_rules! options {
    ($(($($generics:tt)*) $type:ty: $kind:ident)*) => { $(
        /// `None` is nothing.
        impl<$($generics)*> Key for $type {
            #[inline]
            fn fields(&self, each: &mut dyn FnMut(Field<'_>)) {
                match self {
                    Some(value) => value.fields(each),
                    None => each(Field::Nothing),
                }
            }
        }

        impl<$($generics)*> $kind for $type {}
    )* };
}

options! {
    () Option<char>: KeyItem
    () Option<&char>: KeyItem
    (T: KeyItem) Option<List<'_, T>>: KeyElement
}

macro_rules! slices {
    ($($(#[$when:meta])* ($($generics:tt)*) $type:ty)*) => { $(
        $(#[$when])*
        impl<$($generics)*> Key for $type {
            #[inline]
            fn fields(&self, each: &mut dyn FnMut(Field<'_>)) {
                for field in self.iter() {
                    each(*field);
                }
            }
        }
    )* };
}

slices! {
    () [Field<'_>]
    () &[Field<'_>]
    (const COUNT: usize) [Field<'_>; COUNT]
    #[cfg(feature = "std")]
    () Vec<Field<'_>>
}

macro_rules! tuples {
    ($($name:ident)*) => {
        tuples!(@ $($name)*);
    };
    (@ $($name:ident)+) => {
        #[allow(non_snake_case)]
        impl<$($name: KeyElement),+> Key for ($($name,)+) {
            #[inline]
            fn fields(&self, each: &mut dyn FnMut(Field<'_>)) {
                let ($($name,)+) = self;
                $($name.fields(each);)+
            }
        }
        tuples!(@@ $($name)+);
    };
    (@@ $first:ident $($name:ident)*) => {
        tuples!(@ $($name)*);
    };
    (@) => {};
}

tuples!(A B C D E F G H I J K L);
