// Made by scripts/rust_crate from crates/test_replay/src/cases.rt: change that file.

//! A line of a file of cases: a kind, a version, secrets, an argument and a value.

use crate::replay::kit::*;

use super::bodies::{agrees, version_of};
use super::rules::{message, number, numbers, secrets_of};
use super::{draws, items, keys, readers, shards, streams};

/// The columns of a file.
pub const COLUMNS: &str = "kind\tversion\tsecrets\targument\tvalue";

/// Replays a line. Returns whether the library has its value.
pub fn replay(line: &str) -> Result<bool> {
    let columns: Vec<&str> = line.split("\t").collect();
    let (kind, version, secrets, argument, value) =
        if let [kind, version, secrets, argument, value] = columns.as_slice() {
            (kind, version, secrets, argument, value)
        } else {
            bail!("no five fields");
        };
    // More than 2^32 bytes: the packages replay it, and the library's hash is proved.
    if argument.starts_with("zeros:") {
        return Ok(true);
    }
    match *kind {
        "hash" => {
            let (tested, options) = version_of(version)?;
            let bytes = message(argument)?;
            let secrets = secrets_of(secrets)?;
            Ok(agrees(tested, options, &secrets, bytes.as_slice(), number(value)?))
        }
        "reader" => readers::replay(version, secrets, argument, number(value)?),
        "items" => items::replay(version, secrets, argument, number(value)?),
        "stream" => streams::replay(version, &secrets_of(secrets)?.seven, argument, value),
        "secrets" => draws::replay_secrets(version, secrets, value),
        "key" => keys::replay(secrets, argument, number(value)?),
        "shard" | "first_hash" | "bucket" => shards::replay(kind, argument, value),
        "fingerprint" => shards::replay_fingerprint(argument, number(value)?),
        _ => {
            let found = draws::computed(kind, numbers(argument)?.as_slice())?;
            Ok(found.as_slice() == numbers(value)?.as_slice())
        }
    }
}
