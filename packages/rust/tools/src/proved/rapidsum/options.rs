// Made by scripts/rust_crate from crates/rapidsum/src/options.rt: change that file.

//! The table of the options, and the options of a call.

use crate::algorithm::{Algorithm, version_named};
use crate::line::{Layout, Style};
use crate::seed::seed_of;
use rapidhash_tool::form::Version;

/// The places of the options in the table.
pub const ALGORITHM: usize = 0;

pub const SEED: usize = 1;

pub const FILES_FROM: usize = 2;

pub const CHECK: usize = 3;

pub const QUIET: usize = 4;

pub const STATUS: usize = 5;

pub const IGNORE_MISSING: usize = 6;

pub const STRICT: usize = 7;

pub const WARN: usize = 8;

pub const BINARY: usize = 9;

pub const TEXT: usize = 10;

pub const TAG: usize = 11;

pub const ZERO: usize = 12;

pub const HELP: usize = 13;

pub const VERSION: usize = 14;

/// An option in the table.
#[derive(Clone, Copy)]
pub struct Row {
    /// The letter after a hyphen.
    pub letter: Option<u8>,
    /// The name after two hyphens.
    pub name: &'static str,
    /// The name of the value in the help, or nothing if the option takes none.
    pub value: &'static str,
    pub help: &'static str,
}

/// All options, in the order of the help.
pub type Table = [Row; 15];

// Makes a table of rows.
macro_rules! table {
    ($($letter:expr, $name:literal, $value:literal, $help:literal;)*) => {
        [$(Row { letter: $letter, name: $name, value: $value, help: $help }),*]
    };
}

const ROWS: Table = table! {
    Some(b'a'), "algorithm", "VERSION", "Hash with this version [default: v3]";
    None, "seed", "NUMBER", "Hash with the seed made from this number";
    None, "files0-from", "F", "Read the names of the FILEs from F, each ended by NUL";
    Some(b'c'), "check", "", "Read checksums from the FILEs and check them";
    None, "quiet", "", "Don't print OK for each file that matches";
    None, "status", "", "Don't print anything but errors";
    None, "ignore-missing", "", "Don't fail or report a status for missing files";
    None, "strict", "", "Fail if a line is improperly formatted";
    Some(b'w'), "warn", "", "Warn about each improperly formatted line";
    Some(b'b'), "binary", "", "Print an asterisk before each name";
    Some(b't'), "text", "", "Print a space before each name (default)";
    None, "tag", "", "Print the version in each line, as in BSD checksums";
    Some(b'z'), "zero", "", "End each line with NUL, and don't escape names";
    Some(b'h'), "help", "", "Print help";
    Some(b'V'), "version", "", "Print version";
};

/// Returns the table. A contract cannot name the constant, so other functions receive the table.
pub fn rows() -> &'static Table {
    &ROWS
}

/// Returns the place of the option with a name.
pub fn place_named(rows: &Table, name: &[u8]) -> Option<usize> {
    for (place, row) in rows.iter().enumerate() {
        if row.name.as_bytes() == name {
            return Some(place);
        }
    }
    None
}

/// Returns the place of the option with a letter.
pub fn place_lettered(rows: &Table, letter: u8) -> Option<usize> {
    for (place, row) in rows.iter().enumerate() {
        if row.letter == Some(letter) {
            return Some(place);
        }
    }
    None
}

/// Returns whether the option at a place takes a value.
pub fn takes_value(rows: &Table, place: usize) -> bool {
    !rows[place].value.is_empty()
}

/// The value of each option in the table, empty for one that takes none, or `None` if it is not
/// given.
#[derive(Clone, Copy)]
pub struct Options<'a> {
    pub values: [Option<&'a [u8]>; 15],
}

impl<'a> Options<'a> {
    /// Returns the value of the option at a place.
    pub fn value(&self, place: usize) -> Option<&'a [u8]> {
        self.values[place]
    }

    /// Returns whether the option at a place is given.
    pub fn has(&self, place: usize) -> bool {
        self.value(place).is_some()
    }

    /// Returns the version and the seed.
    pub fn algorithm(&self) -> Algorithm {
        Algorithm {
            version: match self.value(ALGORITHM) {
                Some(name) => version_named(name).unwrap_or(Version::V3),
                None => Version::V3,
            },
            seed: match self.value(SEED) {
                Some(number) => seed_of(number),
                None => None,
            },
        }
    }

    /// Returns the layout and the end of a line.
    pub fn style(&self) -> Style {
        let layout = if self.has(TAG) {
            Layout::Tagged
        } else if self.has(BINARY) {
            Layout::Binary
        } else {
            Layout::Text
        };
        Style {
            layout,
            zero: self.has(ZERO),
        }
    }
}
