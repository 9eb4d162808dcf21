// Made by scripts/rust_crate from crates/rapidsum/src/quote.rt: change that file.

//! Names in messages.

use rapidhash_tool::kit::Vec;
use crate::problem::Problem;

// The bytes that print nothing, or that a terminal obeys.
fn is_control(byte: u8) -> bool {
    byte < b' ' || byte == 127
}

fn is_blank(byte: Option<&u8>) -> bool {
    matches!(byte, Some(b' ' | b'\t'))
}

// Returns whether a message would not show a name as it is.
fn needs_quotes(name: &[u8]) -> bool {
    name.is_empty()
        || is_blank(name.first())
        || is_blank(name.last())
        || name.iter().any(|byte| is_control(*byte))
}

// Adds the escape of a control character, as the shell reads it in `$'..'`.
fn push_escape(text: &mut Vec<u8>, byte: u8) -> Result<(), Problem> {
    text.push(b'\\')?;
    let letter = match byte {
        7 => b'a',
        8 => b'b',
        9 => b't',
        10 => b'n',
        11 => b'v',
        12 => b'f',
        13 => b'r',
        _ => {
            let digits = [
                b'0' + (byte >> 6),
                b'0' + (byte >> 3 & 7),
                b'0' + (byte & 7),
            ];
            text.extend_from_slice(&digits)?;
            return Ok(());
        }
    };
    text.push(letter)?;
    Ok(())
}

// Adds a name in quotes, which a shell reads back.
fn push_in_quotes(text: &mut Vec<u8>, name: &[u8]) -> Result<(), Problem> {
    text.push(b'\'')?;
    let mut escapes = false;
    for byte in name {
        match (is_control(*byte), escapes) {
            (true, false) => text.extend_from_slice(b"'$'")?,
            (false, true) => text.extend_from_slice(b"''")?,
            _ => {}
        }
        escapes = is_control(*byte);
        match *byte {
            byte if escapes => push_escape(text, byte)?,
            b'\'' => text.extend_from_slice(b"'\\''")?,
            byte => text.push(byte)?,
        }
    }
    text.push(b'\'')?;
    Ok(())
}

/// Adds a name for a message. As in coreutils, it has quotes if it is empty, has a blank at an end
/// or has a control character.
///
/// # Errors
///
/// If an allocation fails.
pub fn push_name(text: &mut Vec<u8>, name: &[u8]) -> Result<(), Problem> {
    if needs_quotes(name) {
        push_in_quotes(text, name)
    } else {
        text.extend_from_slice(name)?;
        Ok(())
    }
}
