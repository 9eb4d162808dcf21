// Made by scripts/rust_crate from crates/rapidsum/src/names.rt: change that file.

//! Names in lines: a backslash, a newline and a carriage return are escaped.

use rapidhash_tool::kit::Vec;
use rapidhash_tool::kit::alloc::{AllocError, Allocator};

// The letter that represents a byte of a name after a backslash.
fn letter_of(byte: u8) -> Option<u8> {
    match byte {
        b'\\' => Some(b'\\'),
        b'\n' => Some(b'n'),
        b'\r' => Some(b'r'),
        _ => None,
    }
}

// The byte that a letter after a backslash represents.
fn byte_of(letter: u8) -> Option<u8> {
    match letter {
        b'\\' => Some(b'\\'),
        b'n' => Some(b'\n'),
        b'r' => Some(b'\r'),
        _ => None,
    }
}

/// Returns whether a name has a byte that is escaped.
pub fn needs_escape(name: &[u8]) -> bool {
    for byte in name {
        if letter_of(*byte).is_some() {
            return true;
        }
    }
    false
}

/// Adds a name to a text, escaped.
pub fn push_escaped<A: Allocator>(text: &mut Vec<u8, A>, name: &[u8]) -> Result<(), AllocError> {
    for byte in name {
        if let Some(letter) = letter_of(*byte) {
            text.push(b'\\')?;
            text.push(letter)?;
        } else {
            text.push(*byte)?;
        }
    }
    Ok(())
}

/// Returns the name that an escaped text represents. Returns `None` if a backslash is at the end or
/// before a byte other than the letter of an escape.
pub fn unescape<A: Allocator>(alloc: A, text: &[u8]) -> Result<Option<Vec<u8, A>>, AllocError> {
    let mut name = Vec::new(alloc);
    let mut pending = false;
    for byte in text {
        if pending {
            let byte = if let Some(byte) = byte_of(*byte) {
                byte
            } else {
                return Ok(None);
            };
            name.push(byte)?;
            pending = false;
        } else if *byte == b'\\' {
            pending = true;
        } else {
            name.push(*byte)?;
        }
    }
    Ok(if pending { None } else { Some(name) })
}
