// Made by scripts/rust_crate from crates/rapidsum/src/entry.rt: change that file.

//! The lines of a list, read back.

use rapidhash_tool::kit::Vec;
use crate::algorithm::Algorithm;
use crate::names::unescape;
use crate::parts::split_line;
use crate::reading::behind;
use rapidhash_tool::kit::alloc::{AllocError, Allocator};

/// The hash and the name of a line.
pub struct Entry<A: Allocator> {
    /// The version and seed, if the line names them.
    pub algorithm: Option<Algorithm>,
    pub hash: u64,
    /// The bytes of the name, without escapes.
    pub name: Vec<u8, A>,
}

/// A line of a list.
pub enum Line<A: Allocator> {
    /// A line with a hash and a name.
    Entry(Entry<A>),
    /// A line that begins with `#`, or an empty line.
    Comment,
    /// Any other line.
    Malformed,
}

// Returns a copy of a name, with its escapes.
fn copy<A: Allocator>(alloc: A, name: &[u8]) -> Result<Vec<u8, A>, AllocError> {
    let mut copy = Vec::new(alloc);
    copy.extend_from_slice(name)?;
    Ok(copy)
}

// Returns the entry of a line without its first backslash, if the name is escaped.
fn escaped_entry<A: Allocator>(alloc: A, line: &[u8]) -> Result<Option<Entry<A>>, AllocError> {
    let parts = if let Some(parts) = split_line(line) {
        parts
    } else {
        return Ok(None);
    };
    let name = if let Some(name) = unescape(alloc, parts.text)? {
        name
    } else {
        return Ok(None);
    };
    Ok(Some(Entry {
        algorithm: parts.algorithm,
        hash: parts.hash,
        name,
    }))
}

// Returns the entry of a line, if the name is not escaped.
fn plain_entry<A: Allocator>(alloc: A, line: &[u8]) -> Result<Option<Entry<A>>, AllocError> {
    let parts = if let Some(parts) = split_line(line) {
        parts
    } else {
        return Ok(None);
    };
    Ok(Some(Entry {
        algorithm: parts.algorithm,
        hash: parts.hash,
        name: copy(alloc, parts.text)?,
    }))
}

// Returns the entry of a line, if it has one.
fn entry_of<A: Allocator>(alloc: A, line: &[u8]) -> Result<Option<Entry<A>>, AllocError> {
    match behind(line, b'\\') {
        Some(body) => escaped_entry(alloc, body),
        None => plain_entry(alloc, line),
    }
}

// Returns the line without the spaces and tabs at its start.
fn without_indent(line: &[u8]) -> &[u8] {
    let indent = line
        .iter()
        .take_while(|byte| matches!(**byte, b' ' | b'\t'))
        .count();
    line.get(indent..).unwrap_or(&[])
}

/// Parses a line without its newline. Ignores spaces and tabs at its start and a carriage return at
/// its end.
///
/// # Errors
///
/// If an allocation fails.
pub fn read_line<A: Allocator + Copy>(alloc: A, line: &[u8]) -> Result<Line<A>, AllocError> {
    if let Some(entry) = entry_of(alloc, line)? {
        return Ok(Line::Entry(entry));
    }
    if matches!(line, [] | [b'\r'] | [b'#', ..]) {
        return Ok(Line::Comment);
    }
    Ok(match entry_of(alloc, without_indent(line))? {
        Some(entry) => Line::Entry(entry),
        None => Line::Malformed,
    })
}
