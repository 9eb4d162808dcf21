//! The arguments, as bytes or as text.

use super::HostRuntime;
use super::alloc::{AllocError, Global, Vec};
use std::ffi::OsString;
use std::io;

/// Why an argument was not copied.
pub enum FillError {
    /// There are fewer arguments.
    NotPresent,
    /// It is longer than the buffer.
    TooLong,
}

/// Access to the arguments.
pub trait Env {
    /// Copies an argument to the start of `buf` and returns its length. Argument 0 is the program's name.
    fn arg(&self, i: usize, buf: &mut [u8]) -> Result<usize, FillError>;
}

impl Env for HostRuntime {
    fn arg(&self, i: usize, buf: &mut [u8]) -> Result<usize, FillError> {
        let word = self.arguments.get(i).ok_or(FillError::NotPresent)?;
        let place = buf.get_mut(..word.len()).ok_or(FillError::TooLong)?;
        place.copy_from_slice(word);
        Ok(word.len())
    }
}

/// All arguments.
pub struct Args(Vec<String>);

impl Args {
    /// Returns them.
    pub fn collect(self, _alloc: Global) -> Result<Vec<String>, AllocError> {
        Ok(self.0)
    }
}

/// Returns all arguments, unless one is not UTF-8.
pub fn args(rt: &HostRuntime) -> io::Result<Args> {
    let mut all = Vec::new(Global);
    for word in &rt.arguments {
        let word = std::str::from_utf8(word).map_err(|_| io::ErrorKind::InvalidData)?;
        all.push(super::format(Global, format_args!("{word}")).map_err(|_| AllocError)?)?;
    }
    Ok(Args(all))
}

#[cfg(unix)]
pub(super) fn bytes_of(word: OsString) -> std::vec::Vec<u8> {
    std::os::unix::ffi::OsStringExt::into_vec(word)
}

// Elsewhere names are Unicode, except a few that no program can print.
#[cfg(not(unix))]
pub(super) fn bytes_of(word: OsString) -> std::vec::Vec<u8> {
    word.to_string_lossy().into_owned().into_bytes()
}
