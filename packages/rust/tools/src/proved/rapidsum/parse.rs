// Made by scripts/rust_crate from crates/rapidsum/src/parse.rt: change that file.

//! The call that the arguments make.

use rapidhash_tool::kit::Vec;
use crate::algorithm::version_named;
use crate::options::{
    ALGORITHM, BINARY, CHECK, FILES_FROM, HELP, IGNORE_MISSING, Options, QUIET, SEED, STATUS,
    STRICT, TAG, TEXT, Table, VERSION, WARN, ZERO,
};
use crate::reading::{Part, Reason, Stop, next};
use crate::seed::seed_of;
use rapidhash_tool::kit::alloc::{AllocError, Allocator};

/// A call: its options and its files.
pub struct Call<'a, A: Allocator> {
    pub options: Options<'a>,
    /// The names of the files.
    pub files: Vec<&'a [u8], A>,
}

// Returns why an option may not have a value behind others.
fn refusal<'a>(
    rows: &'a Table,
    options: &Options<'_>,
    place: usize,
    value: &'a [u8],
) -> Option<Stop<'a>> {
    if place == HELP {
        Some((Reason::Help, b""))
    } else if place == VERSION {
        Some((Reason::Version, b""))
    } else if place == ALGORITHM && version_named(value).is_none() {
        Some((Reason::UnknownVersion, value))
    } else if place == SEED && seed_of(value).is_none() {
        Some((Reason::InvalidSeed, value))
    } else if options.has(place) {
        Some((Reason::GivenTwice, rows[place].name.as_bytes()))
    } else {
        None
    }
}

// Returns the option that loses its value to another one: `--binary` or `--text`, or itself.
fn rival(place: usize) -> usize {
    match place {
        BINARY => TEXT,
        TEXT => BINARY,
        _ => place,
    }
}

// Returns the options with one more.
fn with<'a>(options: Options<'a>, place: usize, value: &'a [u8]) -> Options<'a> {
    let mut values = options.values;
    values[rival(place)] = None;
    values[place] = Some(value);
    Options { values }
}

// Returns the first option that only a check has, in the order of sha256sum.
fn of_check(options: &Options<'_>) -> Option<usize> {
    if options.has(IGNORE_MISSING) {
        Some(IGNORE_MISSING)
    } else if options.has(STATUS) {
        Some(STATUS)
    } else if options.has(WARN) {
        Some(WARN)
    } else if options.has(QUIET) {
        Some(QUIET)
    } else if options.has(STRICT) {
        Some(STRICT)
    } else {
        None
    }
}

// Returns the first thing that no check may have, in the order of sha256sum.
fn against_check(options: &Options<'_>) -> Option<Reason> {
    if options.has(ZERO) {
        Some(Reason::CheckWithZero)
    } else if options.has(TAG) {
        Some(Reason::CheckWithTag)
    } else if options.has(BINARY) || options.has(TEXT) {
        Some(Reason::CheckWithMode)
    } else {
        None
    }
}

// Returns why the options exclude each other.
fn conflict<'a>(rows: &'a Table, options: &Options<'_>) -> Option<Stop<'a>> {
    if options.has(TAG) && options.has(TEXT) {
        return Some((Reason::TagWithText, b""));
    }
    if options.has(CHECK) {
        return Some((against_check(options)?, b""));
    }
    Some((
        Reason::OnlyInCheck,
        rows[of_check(options)?].name.as_bytes(),
    ))
}

// Returns the call of the options and the files that stand alone.
fn call_of<'a, A: Allocator>(
    rows: &'a Table,
    options: Options<'a>,
    files: Vec<&'a [u8], A>,
) -> Result<Call<'a, A>, Stop<'a>> {
    if let Some(stop) = conflict(rows, &options) {
        return Err(stop);
    }
    if options.has(FILES_FROM) {
        if let [file, ..] = files.as_slice() {
            return Err((Reason::ExtraFile, *file));
        }
    }
    Ok(Call { options, files })
}

// Adds arguments to the files.
fn add<'a, A: Allocator, B: Allocator>(
    files: &mut Vec<&'a [u8], A>,
    words: &'a [Vec<u8, B>],
) -> Result<(), AllocError> {
    for word in words {
        files.push(word.as_slice())?;
    }
    Ok(())
}

// Reads the arguments, one option or file after another.
fn read<'a, A: Allocator, B: Allocator>(
    alloc: A,
    rows: &'a Table,
    words: &'a [Vec<u8, B>],
) -> Result<Result<Call<'a, A>, Stop<'a>>, AllocError> {
    let mut files = Vec::new(alloc);
    let mut options = Options { values: [None; 15] };
    let mut letters: &[u8] = b"";
    let mut left = words;
    loop {
        match next(rows, letters, left) {
            Ok(Part::Option(place, value, behind, others)) => {
                if let Some(stop) = refusal(rows, &options, place, value) {
                    return Ok(Err(stop));
                }
                options = with(options, place, value);
                letters = behind;
                left = others;
            }
            Ok(Part::File(file, others)) => {
                files.push(file)?;
                letters = b"";
                left = others;
            }
            Ok(Part::Files(others)) => {
                add(&mut files, others)?;
                return Ok(call_of(rows, options, files));
            }
            Err(stop) => return Ok(Err(stop)),
        }
    }
}

/// Returns the call that the arguments after the program's name make.
///
/// # Errors
///
/// If an allocation fails.
pub fn parse<'a, A: Allocator, B: Allocator>(
    alloc: A,
    rows: &'a Table,
    words: &'a [Vec<u8, B>],
) -> Result<Result<Call<'a, A>, Stop<'a>>, AllocError> {
    read(alloc, rows, words)
}
