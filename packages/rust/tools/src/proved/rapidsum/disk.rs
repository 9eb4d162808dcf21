// Made by scripts/rust_crate from crates/rapidsum/src/disk.rt: change that file.

//! Files of the system, with a progress line if standard error is a terminal.

use rapidhash_tool::kit::HostRuntime;
use crate::store::Store;
use std::fs::File;
use rapidhash_tool::kit::Stdin;
use std::io::{Read, Result, Write};

/// The number of bytes after which the progress line is written again.
const STEP: u64 = 1 << 27;

/// Files by their names; `-` is standard input.
pub struct Disk<'a> {
    rt: &'a HostRuntime,
    shows_progress: bool,
}

impl<'a> Disk<'a> {
    /// Returns the files of the system, with progress lines if standard error is a terminal.
    pub fn new(rt: &'a HostRuntime) -> Self {
        Disk {
            rt,
            shows_progress: rt.stderr().is_terminal(),
        }
    }
}

impl<'a> Store for Disk<'a> {
    type Reader = OpenFile<'a>;

    fn open(&self, name: &[u8]) -> Result<OpenFile<'a>> {
        let path = rapidhash_tool::kit::path_of(name)?;
        let input = if name == b"-" {
            Input::Stdin(self.rt.stdin())
        } else {
            Input::File(File::open(path)?)
        };
        Ok(OpenFile {
            input,
            rt: self.rt,
            shows_progress: self.shows_progress,
            read: 0,
            shown: 0,
        })
    }

    fn length(&self, reader: &OpenFile<'a>) -> Option<u64> {
        let file = if let Input::File(file) = &reader.input {
            file
        } else {
            return None;
        };
        let metadata = file.metadata().ok()?;
        if metadata.is_file() {
            Some(metadata.len())
        } else {
            None
        }
    }
}

enum Input {
    Stdin(Stdin),
    File(File),
}

/// A file that is read.
pub struct OpenFile<'a> {
    input: Input,
    rt: &'a HostRuntime,
    shows_progress: bool,
    read: u64,
    shown: u64,
}

impl OpenFile<'_> {
    // Adds to the number of bytes, and sometimes shows it. If that fails, the run continues.
    fn count(&mut self, bytes: usize) {
        self.read = self.read.saturating_add(bytes as u64);
        if !self.shows_progress {
            return;
        }
        if bytes == 0 && self.shown > 0 {
            let _ = self.rt.stderr().write_all(b"\r\x1b[K");
        } else if self.read.saturating_sub(self.shown) >= STEP {
            self.shown = self.read;
            let _ = self
                .rt
                .eprint(format_args!("\r{} MiB\x1b[K", self.read >> 20));
        }
    }
}

impl Read for OpenFile<'_> {
    fn read(&mut self, buf: &mut [u8]) -> Result<usize> {
        let count = match &mut self.input {
            Input::Stdin(stdin) => stdin.read(buf)?,
            Input::File(file) => file.read(buf)?,
        };
        self.count(count);
        Ok(count)
    }
}
