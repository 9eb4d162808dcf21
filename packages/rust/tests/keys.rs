//! Tests keys of several fields: the types of fields, and keys in a stream. vectors.rs has the file of keys.
#![cfg(feature = "std")]

use rapidhash::key::{self, Field, Key, KeyField};
use rapidhash::v3::{
    DEFAULT_RAPID_SECRETS, RapidStreamHasherInlineMicro, RapidStreamHasherInlineNano, RapidStreamHasherV3,
    rapidhash_v3, rapidhash_v3_micro_inline, rapidhash_v3_nano_inline,
};
use std::borrow::Cow;
use std::num::{NonZeroI64, NonZeroU8};
use std::rc::Rc;
use std::sync::Arc;

#[test]
fn types_of_fields() {
    let text = String::from("user");
    let user = 14742763072502883419;
    assert_eq!(key::hash(&("user", 4711, None::<&str>)), user);
    assert_eq!(key::hash(&(&text, 4711u16, None::<i8>)), user);
    assert_eq!(key::hash(&(b"user", Some(4711u64), Field::Nothing)), user);
    assert_eq!(key::hash(&(Some(text.as_bytes()), &4711i64, None::<Vec<u8>>)), user);
    assert_eq!(key::hash(&(text.into_bytes(), 4711usize, None::<String>)), user);
    macro_rules! as_64_bits {
        ($($integer:ty)*) => { $(
            let (least, most) = (<$integer>::MIN, <$integer>::MAX);
            assert_eq!(key::hash(&(least, most)), key::hash(&(least as i64, most as u64)));
        )* };
    }
    as_64_bits!(i8 i16 i32 i64 isize u8 u16 u32 u64 usize);
    assert_eq!(key::hash(&(-1i8,)), key::hash(&(u64::MAX,)));
    assert_eq!(key::hash(&(true, false)), key::hash(&(1, 0)));
    let (some, negative) = (NonZeroU8::new(1), NonZeroI64::new(-5));
    assert_eq!(key::hash(&(some.unwrap(), negative)), key::hash(&(1, -5)));
    assert_ne!(key::hash(&(u32::MAX,)), key::hash(&(-1i32,)));
    assert_eq!(
        key::hash(&(1, 2, 3, 4, 5, 6, 7, "8")),
        key::hash(
            &[1u8, 2, 3, 4, 5, 6, 7]
                .map(|n| Field::Integer(n.into()))
                .into_iter()
                .chain(["8".field()])
                .collect::<Vec<_>>()[..]
        )
    );
}

/// Pointers to fields are fields, a field is a key, and so are all kinds of lists of fields.
#[test]
fn pointers_and_lists() {
    let ab = key::hash(&("a", "b"));
    let boxed: Box<str> = "b".into();
    assert_eq!(key::hash(&(Cow::Borrowed("a"), &boxed)), ab);
    assert_eq!(key::hash(&(Rc::<str>::from("a"), Some(boxed))), ab);
    assert_eq!(key::hash(&(Arc::new("a".to_string()), Box::new("b"))), ab);
    assert_eq!(key::hash("a"), key::hash(&("a",)));
    assert_eq!(key::hash(&7), key::hash(&(7,)));
    let fields = ["a".field(), "b".field()];
    assert_eq!(key::hash(&fields), ab);
    assert_eq!(key::hash(&fields[..]), ab);
    assert_eq!(key::hash(&&fields[..]), ab);
    assert_eq!(key::hash(&fields.to_vec()), ab);
    assert_eq!(key::hash(&[] as &[Field<'_>]), rapidhash_v3(b""));
    assert_eq!(
        key::hash(&(1, 2, 3, 4, 5, 6, 7, 8, 9, 10, 11, 12)),
        key::hash(&std::array::from_fn::<_, 12, _>(|at| Field::Integer(at as u64 + 1)))
    );
}

/// A type that is a key, for any hash of its encoding.
struct Row(u64, Option<String>);

impl Key for Row {
    fn fields(&self, each: &mut dyn FnMut(Field<'_>)) {
        each(self.0.field());
        each(self.1.field());
    }
}

#[test]
fn keys_of_other_hashes() {
    let rows = [Row(1, Some("a".to_owned())), Row(2, None)];
    let mut bytes = Vec::new();
    let mut hashers = (
        RapidStreamHasherV3::DEFAULT,
        RapidStreamHasherInlineMicro::<true, false>::new(&DEFAULT_RAPID_SECRETS),
        RapidStreamHasherInlineNano::<false, true>::new(&DEFAULT_RAPID_SECRETS),
    );
    for row in &rows {
        row.fields(&mut |field| match field {
            Field::Nothing => bytes.push(0),
            Field::Integer(number) => bytes.extend([&[1], &number.to_le_bytes()[..]].concat()),
            Field::Bytes(text) => bytes.extend([&[2], &(text.len() as u64).to_le_bytes()[..], text].concat()),
            _ => panic!("a new kind of field"),
        });
        key::write(row, &mut hashers.0);
        key::write(row as &dyn Key, &mut hashers.1);
        key::write(row, &mut hashers.2);
    }
    assert_eq!(hashers.0.finish(), rapidhash_v3(&bytes));
    assert_eq!(hashers.1.finish(), rapidhash_v3_micro_inline::<true, false>(&bytes, &DEFAULT_RAPID_SECRETS));
    assert_eq!(hashers.2.finish(), rapidhash_v3_nano_inline::<false, true>(&bytes, &DEFAULT_RAPID_SECRETS));
}

#[test]
fn fields_in_a_stream() {
    let mut hasher = RapidStreamHasherV3::DEFAULT;
    key::write_integer(&mut hasher, 0x102);
    key::write_nothing(&mut hasher);
    key::write_bytes(&mut hasher, b"hi");
    let bytes = [1, 2, 1, 0, 0, 0, 0, 0, 0, 0, 2, 2, 0, 0, 0, 0, 0, 0, 0, b'h', b'i'];
    assert_eq!(hasher.finish(), rapidhash_v3(&bytes));
}
