// Made by scripts/rust_crate from crates/rapidsum/src/tag.rt: change that file.

//! The tag of a line: its version and its seed.
#![allow(clippy::manual_find)]

use crate::algorithm::Algorithm;
use crate::list::split_before;
use crate::parts::number_of;
use rapidhash_tool::form::Version;

// Returns whether a text is the upper case of a name.
fn is_upper_case(text: &[u8], name: &[u8]) -> bool {
    let mut rest = text;
    for byte in name {
        match rest {
            [first, more @ ..] if *first == byte.to_ascii_uppercase() => rest = more,
            _ => return false,
        }
    }
    rest.is_empty()
}

// Returns the version with a text in a tag.
fn version_tagged(text: &[u8]) -> Option<Version> {
    for version in Version::all() {
        if is_upper_case(text, version.name().as_bytes()) {
            return Some(version);
        }
    }
    None
}

// Returns the seed word that a text after a version represents, if there is one.
fn read_seed(text: &[u8]) -> Option<Option<u64>> {
    match text {
        [] => Some(None),
        [_, digits @ ..] => Some(Some(number_of(digits)?)),
    }
}

// Returns the version and the seed at the start of a line, and the text after them.
pub fn split_tag(line: &[u8]) -> Option<(Algorithm, &[u8])> {
    let behind = line.strip_prefix(b"RAPIDHASH-")?;
    let (tag, rest) = split_before(behind, b' ');
    let (name, seed) = split_before(tag, b':');
    let version = version_tagged(name)?;
    let seed = read_seed(seed)?;
    Some((Algorithm { version, seed }, rest))
}
