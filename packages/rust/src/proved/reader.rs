// Made by scripts/rust_crate from crates/rapidhash_portable/src/reader.rt: change that file.

//! A reader with an error flag, which distinguishes the reader's own errors from the other errors
//! of a hash.
//!
//! The flag is set only if a read failed. Privacy ensures this: only `read_once` makes a
//! `FailedRead`, and only [`Source`] sets its flag, in `read` or for a `FailedRead`.

use std::io;
use std::io::{ErrorKind, Read};

/// A reader with an error flag, which is set if a read failed.
///
/// Each hash over a source begins by clearing the flag. So after it the flag shows whether a read
/// of that call failed.
///
/// ```
/// use rapidhash::reader::Source;
/// use rapidhash::v3::{DEFAULT_RAPID_SECRETS, rapidhash_v3_source};
///
/// let mut source = Source::new(b"hello".as_slice());
/// let answer = rapidhash_v3_source::<&[u8], false>(&mut source, &DEFAULT_RAPID_SECRETS);
/// assert!(answer.is_ok() && !source.failed());
/// ```
#[doc(hidden)]
#[derive(Clone, Debug)]
pub struct Source<R: Read> {
    reader: R,
    error_flag: bool,
}

impl<R: Read> Source<R> {
    /// Returns a source over a reader, with the flag cleared. It reads nothing.
    ///
    /// # Proved
    ///
    /// - `error_flag result ≡ false`
    /// - `reader_of result ≡ reader`
    #[must_use]
    pub const fn new(reader: R) -> Self {
        Source { reader, error_flag: false }
    }

    /// Reads once and returns the reader's own result.
    ///
    /// # Errors
    ///
    /// The reader's own error. Each sets the flag, including that of an interrupted read.
    ///
    /// # Proved
    ///
    /// - `error_flag self.new ≡ (error_flag self.old || is_err result)`
    /// - `ReadsAtMost result buf.new`
    /// - `ReadConsumes (R.remaining (reader_of self.old)) (R.remaining (reader_of self.new)) result buf.new`
    pub fn read(&mut self, buf: &mut [u8]) -> io::Result<usize> {
        match read_once(&mut self.reader, buf) {
            Ok(n) => Ok(n),
            Err(failed) => Err(self.fail(failed)),
        }
    }

    /// Sets the flag for a failed read and returns the reader's own error.
    fn fail(&mut self, failed: FailedRead) -> io::Error {
        self.error_flag = true;
        failed.error
    }

    /// Clears the error flag.
    ///
    /// # Proved
    ///
    /// - `error_flag self.new ≡ false`
    /// - `reader_of self.new ≡ reader_of self.old`
    pub fn clear(&mut self) {
        self.error_flag = false;
    }

    /// Returns whether the error flag is set.
    ///
    /// # Proved
    ///
    /// - `result ≡ error_flag self.now`
    #[must_use]
    pub fn failed(&self) -> bool {
        self.error_flag
    }

    /// Returns the reader, in its current state.
    ///
    /// # Proved
    ///
    /// - `result ≡ reader_of self`
    #[must_use]
    pub fn into_inner(self) -> R {
        self.reader
    }

    /// Lends the reader to a hash that returns a [`Stop`], which [`Source::settle`] needs.
    pub(crate) fn reader_mut(&mut self) -> &mut R {
        &mut self.reader
    }

    /// Returns the result of a hash that read from the reader itself. It sets the flag if a read
    /// failed.
    pub(crate) fn settle(&mut self, answer: Result<u64, Stop>) -> io::Result<u64> {
        match answer {
            Ok(hash) => Ok(hash),
            Err(Stop::Failed(failed)) => Err(self.fail(failed)),
            Err(Stop::Ended) => Err(io::Error::from(ErrorKind::UnexpectedEof)),
        }
    }
}

/// A read that failed, with the reader's own error.
#[derive(Debug)]
pub(crate) struct FailedRead {
    error: io::Error,
}

/// Why a hash of a known length returns no value.
#[derive(Debug)]
pub(crate) enum Stop {
    /// A read failed.
    Failed(FailedRead),
    /// The reader had fewer bytes.
    Ended,
}

impl Stop {
    /// Returns the reader's own error, or `ErrorKind::UnexpectedEof`.
    pub(crate) fn into_error(self) -> io::Error {
        match self {
            Stop::Failed(failed) => failed.error,
            Stop::Ended => io::Error::from(ErrorKind::UnexpectedEof),
        }
    }
}

/// Reads once from `reader`.
#[inline(always)]
pub(crate) fn read_once<R: Read + ?Sized>(reader: &mut R, buf: &mut [u8]) -> Result<usize, FailedRead> {
    reader.read(buf).map_err(|error| FailedRead { error })
}
