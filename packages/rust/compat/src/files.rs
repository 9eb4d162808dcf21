//! V1 and V2 of a whole file. The proved calls take any reader and the number of its bytes.

use crate::{v1, v2};
use std::fs::File;
use std::io::{ErrorKind, Read, Result};

/// A file whose interrupted reads are repeated.
struct Repeated<'f>(&'f mut File);

impl Read for Repeated<'_> {
    fn read(&mut self, buffer: &mut [u8]) -> Result<usize> {
        loop {
            match self.0.read(buffer) {
                Err(error) if error.kind() == ErrorKind::Interrupted => {}
                result => return result,
            }
        }
    }
}

/// Returns the V1 hash of the rest of a file, whose length its metadata provides.
///
/// # Errors
///
/// The system's own error, or `ErrorKind::UnexpectedEof` if the file has fewer bytes than its metadata says.
#[deprecated(note = "V1 needs the length before the first byte: V3 does not")]
pub fn rapidhash_v1_file(data: &mut File) -> Result<u64> {
    rapidhash_v1_file_inline::<false>(data, &v1::DEFAULT_RAPID_SECRETS)
}

/// Returns the V1 hash of a file with the caller's seed and secrets.
///
/// # Errors
///
/// Those of [`rapidhash_v1_file`].
#[deprecated(note = "V1 needs the length before the first byte: V3 does not")]
pub fn rapidhash_v1_file_seeded(data: &mut File, secrets: &v1::RapidSecrets) -> Result<u64> {
    rapidhash_v1_file_inline::<false>(data, secrets)
}

/// Returns the plain or the protected V1 hash of a file.
///
/// # Errors
///
/// Those of [`rapidhash_v1_file`].
#[deprecated(note = "V1 needs the length before the first byte: V3 does not")]
pub fn rapidhash_v1_file_inline<const PROTECTED: bool>(data: &mut File, secrets: &v1::RapidSecrets) -> Result<u64> {
    let len = data.metadata()?.len();
    proved::v1::rapidhash_v1_file_inline::<_, PROTECTED>(&mut Repeated(data), len, secrets)
}

/// Returns the V2.2 hash of a file, whose length its metadata provides.
///
/// # Errors
///
/// Those of [`rapidhash_v1_file`].
#[deprecated(note = "V2 needs the length before the first byte: V3 does not")]
pub fn rapidhash_v2_2_file(data: &mut File) -> Result<u64> {
    rapidhash_v2_file_inline::<2, false>(data, &v2::DEFAULT_RAPID_SECRETS)
}

/// Returns the V2.2 hash of a file with the caller's seed and secrets.
///
/// # Errors
///
/// Those of [`rapidhash_v1_file`].
#[deprecated(note = "V2 needs the length before the first byte: V3 does not")]
pub fn rapidhash_v2_2_file_seeded(data: &mut File, secrets: &v2::RapidSecrets) -> Result<u64> {
    rapidhash_v2_file_inline::<2, false>(data, secrets)
}

/// Returns the plain or the protected V2 hash of a file, of a minor version.
///
/// # Errors
///
/// Those of [`rapidhash_v1_file`].
///
/// A call does not compile if `MINOR` is above 2.
#[deprecated(note = "V2 needs the length before the first byte: V3 does not")]
pub fn rapidhash_v2_file_inline<const MINOR: u8, const PROTECTED: bool>(
    data: &mut File,
    secrets: &v2::RapidSecrets,
) -> Result<u64> {
    let len = data.metadata()?.len();
    proved::v2::rapidhash_v2_file_inline::<_, MINOR, PROTECTED>(&mut Repeated(data), len, &secrets.proved())
}
