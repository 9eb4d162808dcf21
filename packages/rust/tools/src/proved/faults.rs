// Made by scripts/rust_crate from crates/rapidhash_tool/src/faults.rt: change that file.

//! The errors of the command line.

/// The reason why the tool stopped.
#[derive(Debug, Clone, Copy, PartialEq, Eq)]
pub enum CliFault {
    /// The arguments name two versions.
    Versions,
    /// The file could not be opened.
    Open,
    /// A read of standard input failed, or its reads had no end.
    Stdin,
    /// An allocation failed.
    Memory,
    /// A read of the file failed, its reads had no end, its length is unknown, or it ended before
    /// that length.
    File,
    /// A write failed, or accepted no byte.
    Write,
}

impl CliFault {
    /// Returns the error's number. It never changes, and no other error will have it.
    pub fn number(&self) -> u8 {
        match self {
            CliFault::Versions => 1,
            CliFault::Open => 2,
            CliFault::Stdin => 3,
            CliFault::Memory => 4,
            CliFault::File => 5,
            CliFault::Write => 6,
        }
    }

    /// Returns the line for standard error, without its newline.
    pub fn text(&self) -> &'static str {
        match self {
            CliFault::Versions => {
                "You must specify a single rapidhash version to use. See --help for more."
            }
            CliFault::Open => "Could not open file.",
            CliFault::Stdin => "Could not read from stdin.",
            CliFault::Memory => "Out of memory.",
            CliFault::File => "Failed to hash file.",
            CliFault::Write => "Could not write to stdout.",
        }
    }
}
