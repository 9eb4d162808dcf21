// Made by scripts/rust_crate from crates/test_replay/src/keys.rt: change that file.

//! Cases of keys of several fields.

use crate::replay::kit::*;

use super::rules::secrets_of;
use rapidhash::key::{Field, rapidhash_v3_key, rapidhash_v3_key_seeded};

/// A field whose bytes are its own.
#[derive(Clone, Debug)]
enum Part {
    Nothing,
    Integer(u64),
    Bytes(Vec<u8>),
}

impl Part {
    fn new(text: &str) -> Result<Part> {
        if text == "-" {
            return Ok(Part::Nothing);
        }
        match text.strip_prefix("x") {
            Some(digits) => Ok(Part::Bytes(hex::decode(digits)?)),
            None => Ok(Part::Integer(text.parse::<i64>()? as u64)),
        }
    }

    fn field(&self) -> Field<'_> {
        match self {
            Part::Nothing => Field::Nothing,
            Part::Integer(value) => Field::Integer(*value),
            Part::Bytes(bytes) => Field::Bytes(bytes.as_slice()),
        }
    }
}

/// Replays the hash of a key, whose fields are between spaces, or `()` for none.
pub fn replay(rule: &str, key: &str, expected: u64) -> Result<bool> {
    let mut parts = Vec::new();
    for text in key.split_whitespace().filter(|text| *text != "()") {
        parts.push(Part::new(text)?);
    }
    let mut fields = Vec::new();
    for part in &parts {
        fields.push(part.field());
    }
    let secrets = secrets_of(rule)?.seven;
    let default = rule != "default" || rapidhash_v3_key(fields.as_slice()) == expected;
    Ok(default && rapidhash_v3_key_seeded(fields.as_slice(), &secrets) == expected)
}
