// Made by scripts/rust_crate from crates/rapidsum/src/reading.rt: change that file.

//! What the arguments begin with, by the conventions of GNU's programs.

use rapidhash_tool::kit::Vec;
use crate::list::line_length;
use crate::options::{Table, place_lettered, place_named, takes_value};
use rapidhash_tool::kit::alloc::Allocator;

/// Why the arguments make no call.
#[derive(Clone, Copy)]
pub enum Reason {
    /// The help is requested.
    Help,
    /// The version is requested.
    Version,
    UnknownVersion,
    InvalidSeed,
    GivenTwice,
    UnknownName,
    UnwantedValue,
    MissingValue,
    UnknownLetter,
    MissingValueOfLetter,
    TagWithText,
    CheckWithZero,
    CheckWithTag,
    CheckWithMode,
    OnlyInCheck,
    ExtraFile,
}

/// Why the arguments make no call, and the text at fault.
pub type Stop<'a> = (Reason, &'a [u8]);

/// What the arguments begin with, and the arguments behind it.
pub enum Part<'a, A: Allocator> {
    /// An option at this place, its value, and the letters behind it in the same argument.
    Option(usize, &'a [u8], &'a [u8], &'a [Vec<u8, A>]),
    File(&'a [u8], &'a [Vec<u8, A>]),
    /// All arguments are files.
    Files(&'a [Vec<u8, A>]),
}

/// Returns what is behind a byte that a text begins with, if it does.
pub fn behind(text: &[u8], byte: u8) -> Option<&[u8]> {
    match text.split_first() {
        Some((first, behind)) if *first == byte => Some(behind),
        _ => None,
    }
}

// Returns the name, and the value behind an equals sign, if there is one.
fn name_and_value(text: &[u8]) -> (&[u8], Option<&[u8]>) {
    let (name, rest) = text.split_at(line_length(text, b'='));
    match rest {
        [_, value @ ..] => (name, Some(value)),
        [] => (name, None),
    }
}

// Returns what a word of two hyphens and a text begins with.
fn named<'a, A: Allocator>(
    rows: &Table,
    word: &'a [u8],
    text: &'a [u8],
    words: &'a [Vec<u8, A>],
) -> Result<Part<'a, A>, Stop<'a>> {
    let (name, value) = name_and_value(text);
    let place = if let Some(place) = place_named(rows, name) {
        place
    } else {
        return Err((Reason::UnknownName, word));
    };
    match (takes_value(rows, place), value) {
        (false, None) => Ok(Part::Option(place, b"", b"", words)),
        (true, Some(value)) => Ok(Part::Option(place, value, b"", words)),
        (false, Some(_)) => Err((Reason::UnwantedValue, name)),
        (true, None) => match words.split_first() {
            Some((value, words)) => Ok(Part::Option(place, value.as_slice(), b"", words)),
            None => Err((Reason::MissingValue, name)),
        },
    }
}

// Returns what a letter and those behind it begin with.
fn lettered<'a, A: Allocator>(
    rows: &Table,
    letters: &'a [u8],
    words: &'a [Vec<u8, A>],
) -> Result<Part<'a, A>, Stop<'a>> {
    let (letter, behind) = if let Some((letter, behind)) = letters.split_first() {
        (letter, behind)
    } else {
        unreachable!()
    };
    let place = if let Some(place) = place_lettered(rows, *letter) {
        place
    } else {
        return Err((Reason::UnknownLetter, letters));
    };
    if !takes_value(rows, place) {
        return Ok(Part::Option(place, b"", behind, words));
    }
    if !behind.is_empty() {
        return Ok(Part::Option(place, behind, b"", words));
    }
    match words.split_first() {
        Some((value, others)) => Ok(Part::Option(place, value.as_slice(), b"", others)),
        None => Err((Reason::MissingValueOfLetter, letters)),
    }
}

/// Returns what the letters that are left of an argument and the arguments behind it begin with.
pub fn next<'a, A: Allocator>(
    rows: &Table,
    letters: &'a [u8],
    words: &'a [Vec<u8, A>],
) -> Result<Part<'a, A>, Stop<'a>> {
    if !letters.is_empty() {
        return lettered(rows, letters, words);
    }
    let (word, others) = if let Some((word, others)) = words.split_first() {
        (word, others)
    } else {
        return Ok(Part::Files(words));
    };
    let word = word.as_slice();
    let text = if let Some(text) = behind(word, b'-') {
        text
    } else {
        return Ok(Part::File(word, others));
    };
    if text.is_empty() {
        return Ok(Part::File(word, others));
    }
    let name = if let Some(name) = behind(text, b'-') {
        name
    } else {
        return lettered(rows, text, others);
    };
    if name.is_empty() {
        return Ok(Part::Files(others));
    }
    named(rows, word, name, others)
}
