//! Reads lists of JSON without lists and objects in them.

use rapidhash::key::{Field, KeyField};

/// An item of a list.
pub enum Item {
    Nothing,
    Bool(bool),
    Integer(u64),
    Text(String),
}

impl KeyField for Item {
    fn field(&self) -> Field<'_> {
        match self {
            Item::Nothing => Field::Nothing,
            Item::Bool(value) => value.field(),
            Item::Integer(value) => value.field(),
            Item::Text(value) => value.field(),
        }
    }
}

/// Reads a text behind its quote, and returns what follows it.
fn text(mut rest: &str) -> Option<(String, &str)> {
    let mut units = Vec::new();
    loop {
        let first = rest.chars().next()?;
        rest = &rest[first.len_utf8()..];
        match first {
            '"' => return Some((String::from_utf16(&units).ok()?, rest)),
            '\\' if rest.starts_with('u') => {
                units.push(u16::from_str_radix(rest.get(1..5)?, 16).ok()?);
                rest = &rest[5..];
            }
            '\\' => return None,
            _ => units.extend(first.encode_utf16(&mut [0; 2]).iter()),
        }
    }
}

fn item(rest: &str) -> Option<(Item, &str)> {
    if let Some(rest) = rest.strip_prefix('"') {
        return text(rest).map(|(text, rest)| (Item::Text(text), rest));
    }
    let (word, rest) = rest.split_at(rest.find([',', ']'])?);
    let item = match word {
        "null" => Item::Nothing,
        "true" | "false" => Item::Bool(word == "true"),
        _ => Item::Integer(word.parse::<i64>().map(|it| it as u64).or_else(|_| word.parse()).ok()?),
    };
    Some((item, rest))
}

/// Returns the items of a list, or nothing for what the types here lack.
pub fn items(text: &str) -> Option<Vec<Item>> {
    let mut rest = text.strip_prefix('[')?;
    let mut items = Vec::new();
    while rest != "]" {
        let (item, after) = item(rest)?;
        items.push(item);
        rest = after.strip_prefix(',').unwrap_or(after);
    }
    Some(items)
}
