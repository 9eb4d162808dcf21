// Made by scripts/rust_crate from crates/test_replay/src/items.rt: change that file.

//! Cases of the hasher of maps: lists of items, and the hash after them.

use crate::replay::kit::*;

use super::bodies::options_of;
use super::rules::{message, secrets_of};
use crate::replay::proved::form::Options;
use rapidhash::inner::{RapidHasher, SeedableState};
use rapidhash::v3::RapidSecrets;
use std::hash::{BuildHasher, Hasher};

/// Bytes, or an integer by the call for it.
#[derive(Clone, Debug)]
pub enum Item {
    Bytes(Vec<u8>),
    U8(u8),
    U16(u16),
    U32(u32),
    U64(u64),
    Usize(usize),
    U128(u128),
    I8(i8),
    I16(i16),
    I32(i32),
    I64(i64),
    Isize(isize),
    I128(i128),
}

impl Item {
    /// Writes it, an integer by the hasher's own call for its type.
    pub fn write_to<const AVALANCHE: bool, const SPONGE: bool, const COMPACT: bool, const PROTECTED: bool>(
        &self,
        hasher: &mut RapidHasher<'_, AVALANCHE, SPONGE, COMPACT, PROTECTED>,
    ) {
        match self {
            Item::Bytes(bytes) => hasher.write(bytes.as_slice()),
            Item::U8(value) => hasher.write_u8(*value),
            Item::U16(value) => hasher.write_u16(*value),
            Item::U32(value) => hasher.write_u32(*value),
            Item::U64(value) => hasher.write_u64(*value),
            Item::Usize(value) => hasher.write_usize(*value),
            Item::U128(value) => hasher.write_u128(*value),
            Item::I8(value) => hasher.write_i8(*value),
            Item::I16(value) => hasher.write_i16(*value),
            Item::I32(value) => hasher.write_i32(*value),
            Item::I64(value) => hasher.write_i64(*value),
            Item::Isize(value) => hasher.write_isize(*value),
            Item::I128(value) => hasher.write_i128(*value),
        }
    }
}

/// An item by its name: `bytes:` and hex digits, a message by its rule and length, or the type of
/// an integer and its value.
fn named(word: &str) -> Result<Item> {
    let (name, value) = if let Some((name, value)) = word.split_once(":") {
        (name, value)
    } else {
        bail!("no name and value in {word}");
    };
    Ok(match name {
        "bytes" => Item::Bytes(hex::decode(value)?),
        "square" | "random" => Item::Bytes(message(word)?),
        "u8" => Item::U8(value.parse::<u8>()?),
        "u16" => Item::U16(value.parse::<u16>()?),
        "u32" => Item::U32(value.parse::<u32>()?),
        "u64" => Item::U64(value.parse::<u64>()?),
        "usize" => value.parse().map_or(Item::U64(value.parse()?), Item::Usize),
        "u128" => Item::U128(value.parse::<u128>()?),
        "i8" => Item::I8(value.parse::<i8>()?),
        "i16" => Item::I16(value.parse::<i16>()?),
        "i32" => Item::I32(value.parse::<i32>()?),
        "i64" => Item::I64(value.parse::<i64>()?),
        "isize" => value
            .parse()
            .ok()
            .filter(|it: &isize| isize::BITS == 64 || *it >= 0)
            .map_or(Item::I64(value.parse()?), Item::Isize),
        "i128" => Item::I128(value.parse::<i128>()?),
        _ => bail!("no item {word}"),
    })
}

/// Returns the items between spaces, `-` for none.
pub fn listed(list: &str) -> Result<Vec<Item>> {
    let mut all = Vec::new();
    for word in list.split_whitespace().filter(|word| *word != "-") {
        all.push(named(word)?);
    }
    Ok(all)
}

/// The results of the hasher of a seedable state.
fn answer<const AVALANCHE: bool, const SPONGE: bool, const COMPACT: bool, const PROTECTED: bool>(
    start: &RapidSecrets,
    items: &[Item],
) -> u64 {
    let state = SeedableState::<AVALANCHE, SPONGE, COMPACT, PROTECTED>::custom(start.seed, &start.secrets);
    let mut hasher = state.build_hasher();
    for item in items {
        item.write_to(&mut hasher);
    }
    hasher.finish()
}

/// The same, of options that are values.
pub fn answered<const COMPACT: bool>(options: Options, sponge: bool, start: &RapidSecrets, items: &[Item]) -> u64 {
    match (options.avalanche, sponge, options.protected) {
        (true, true, true) => answer::<true, true, COMPACT, true>(start, items),
        (true, true, false) => answer::<true, true, COMPACT, false>(start, items),
        (true, false, true) => answer::<true, false, COMPACT, true>(start, items),
        (true, false, false) => answer::<true, false, COMPACT, false>(start, items),
        (false, true, true) => answer::<false, true, COMPACT, true>(start, items),
        (false, true, false) => answer::<false, true, COMPACT, false>(start, items),
        (false, false, true) => answer::<false, false, COMPACT, true>(start, items),
        (false, false, false) => answer::<false, false, COMPACT, false>(start, items),
    }
}

/// Replays a list of items, by unrolled and by compact code.
pub fn replay(name: &str, secrets: &str, list: &str, expected: u64) -> Result<bool> {
    let (name, options) = options_of(name);
    let sponge = match name {
        "hasher" => false,
        "hasher_sponge" => true,
        _ => bail!("no hasher {name}"),
    };
    let start = secrets_of(secrets)?.seven;
    let items = listed(list)?;
    let items = items.as_slice();
    Ok(answered::<false>(options, sponge, &start, items) == expected
        && answered::<true>(options, sponge, &start, items) == expected)
}
