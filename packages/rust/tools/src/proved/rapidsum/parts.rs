// Made by scripts/rust_crate from crates/rapidsum/src/parts.rt: change that file.

//! The parts of a line: the version, the hash and the text of the name.

use crate::algorithm::Algorithm;
use crate::tag::split_tag;
use rapidhash_tool::kit::hex::FromHex;

/// The parts of a line, whose name is still escaped.
#[derive(Clone, Copy)]
pub struct Parts<'a> {
    /// The version and seed, if the line names them.
    pub algorithm: Option<Algorithm>,
    pub hash: u64,
    /// The name as printed.
    pub text: &'a [u8],
}

/// Returns the number of 16 digits, in either case.
pub fn number_of(digits: &[u8]) -> Option<u64> {
    match <[u8; 8] as FromHex>::from_hex(digits) {
        Ok(bytes) => Some(u64::from_be_bytes(bytes)),
        Err(_) => None,
    }
}

// Returns the text without the carriage return at its end, if it has one.
fn without_return(text: &[u8]) -> &[u8] {
    let len = text.len();
    if len > 0 && text[len - 1] == b'\r' {
        &text[..len - 1]
    } else {
        text
    }
}

// Returns the text of the name after the digits and two spaces, or a space and an asterisk.
fn name_behind(rest: &[u8]) -> Option<&[u8]> {
    let text = if let [b' ', b' ' | b'*', text @ ..] = rest {
        text
    } else {
        return None;
    };
    Some(without_return(text))
}

// Returns the number at the start of a text, and the text after it.
fn split_digits(text: &[u8]) -> Option<(u64, &[u8])> {
    let (digits, rest) = rapidhash_tool::kit::split_at_checked(text, 16)?;
    Some((number_of(digits)?, rest))
}

// Returns the text before its last bytes, and these bytes.
fn split_end(text: &[u8], count: usize) -> Option<(&[u8], &[u8])> {
    rapidhash_tool::kit::split_at_checked(text, text.len().checked_sub(count)?)
}

// Returns the text after a space and an opening parenthesis.
fn behind_parenthesis(text: &[u8]) -> Option<&[u8]> {
    match text {
        [b' ', b'(', rest @ ..] => Some(rest),
        _ => None,
    }
}

// Returns whether a text is the closing parenthesis and the equals sign.
fn is_equals_sign(text: &[u8]) -> bool {
    matches!(text, [b')', b' ', b'=', b' '])
}

// Returns the text of a name in parentheses, before an equals sign.
fn within_parentheses(text: &[u8]) -> Option<&[u8]> {
    let (start, end) = split_end(text, 4)?;
    if !is_equals_sign(end) {
        return None;
    }
    let name = behind_parenthesis(start)?;
    Some(name)
}

// Returns the text of a name in parentheses, and the number after it.
fn split_value(rest: &[u8]) -> Option<(&[u8], u64)> {
    let (front, digits) = split_end(without_return(rest), 16)?;
    let text = within_parentheses(front)?;
    let hash = number_of(digits)?;
    Some((text, hash))
}

// Returns the parts of a line that begins with the digits.
fn split_plain(line: &[u8]) -> Option<Parts<'_>> {
    let (hash, rest) = split_digits(line)?;
    Some(Parts {
        algorithm: None,
        hash,
        text: name_behind(rest)?,
    })
}

// Returns the parts of a line that begins with a tag.
fn split_tagged(line: &[u8]) -> Option<Parts<'_>> {
    let (algorithm, rest) = split_tag(line)?;
    let (text, hash) = split_value(rest)?;
    Some(Parts {
        algorithm: Some(algorithm),
        hash,
        text,
    })
}

// Returns whether a line begins as a tag does: no hexadecimal digit is an R.
fn begins_as_tag(line: &[u8]) -> bool {
    !line.is_empty() && line[0] == b'R'
}

/// Returns the parts of a line in any layout.
pub fn split_line(line: &[u8]) -> Option<Parts<'_>> {
    if begins_as_tag(line) {
        split_tagged(line)
    } else {
        split_plain(line)
    }
}
