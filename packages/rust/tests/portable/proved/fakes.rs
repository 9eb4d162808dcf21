// Made by scripts/rust_crate from crates/test_portable/src/fakes.rt: change that file.

//! A reader that counts its reads and fails on purpose. Its contract states the bytes that it has
//! left, so contracts over readers apply to it.

use std::io::{Error, ErrorKind, Read, Result};

/// Returns at most a number of bytes per read, counts its reads, and fails at the read with a
/// number.
#[derive(Clone, Debug)]
pub struct CountingReader<'a> {
    /// The bytes that it still has.
    pub left: &'a [u8],
    /// The most bytes that a read returns. At 0 it returns one.
    pub most: usize,
    /// The number of reads, with the failing one and those at its end.
    pub reads: u64,
    /// The length of the longest buffer that was passed to it.
    pub longest: usize,
    /// The number of the read that fails, from 1 on, or 0 for none. A failing read consumes no
    /// byte, and the next one goes on.
    pub fails_at: u64,
    /// The kind of its error.
    pub kind: ErrorKind,
}

impl<'a> CountingReader<'a> {
    /// Returns a reader without reads so far, which never fails.
    pub fn new(left: &'a [u8], most: usize) -> Self {
        CountingReader::failing(left, most, 0, ErrorKind::Other)
    }

    /// Returns a reader without reads so far, which fails at one read.
    pub fn failing(left: &'a [u8], most: usize, fails_at: u64, kind: ErrorKind) -> Self {
        CountingReader { left, most, reads: 0, longest: 0, fails_at, kind }
    }
}

impl Read for CountingReader<'_> {
    fn read(&mut self, buf: &mut [u8]) -> Result<usize> {
        self.reads = self.reads.saturating_add(1);
        self.longest = self.longest.max(buf.len());
        if self.reads == self.fails_at {
            return Err(Error::from(self.kind));
        }
        let count = self.most.max(1).min(buf.len()).min(self.left.len());
        let (taken, others) = self.left.split_at(count);
        buf[..count].copy_from_slice(taken);
        self.left = others;
        Ok(count)
    }
}
