// Made by scripts/rust_crate from crates/rapidhash_portable/src/v1/readers.rt: change that file.

//! V1 of the next bytes of a reader, whose number is known.

use super::RapidSecrets;
use crate::kernel::v1::{close_tail, hash};
use crate::kernel::{MIXED, NOT_COMPACT};
use crate::known_length::{BUFFER, SHORT, fill, fold_front};
use crate::lanes::join_wide;
use crate::reader::{Source, Stop};
use std::io;
use std::io::Read;

/// Returns the hash of the next `len` bytes of the reader: that of
/// [`rapidhash_v1_inline`](super::rapidhash_v1_inline) with `AVALANCHE` and without `V1_BUG`. It
/// reads no byte after them, and nothing at all for a `len` of 0.
///
/// It uses 8 KiB of stack, and above 8192 bytes 64 KiB more.
///
/// ```
/// use rapidhash::reader::Source;
/// use rapidhash::v1::{DEFAULT_RAPID_SECRETS, rapidhash_v1_source};
///
/// let mut source = Source::new(b"something\nmore".as_slice());
/// let hash = rapidhash_v1_source::<&[u8], false>(&mut source, 10, &DEFAULT_RAPID_SECRETS)?;
/// assert_eq!(hash, 15965596575264898037);
/// # Ok::<(), std::io::Error>(())
/// ```
///
/// # Errors
///
/// If the error flag is set after the call, the error is the reader's own, also for an interrupted
/// read. Otherwise it is `ErrorKind::UnexpectedEof`: the reader had fewer bytes, and all of them
/// were read.
///
/// # Proved
///
/// - `HashesNext (R.remaining (reader_of source.old)) (R.remaining (reader_of source.new)) len result (λ _. error_flag source.new) (seeded_hash_v1 false (options true PROTECTED) secrets.now)`
/// - `FlagsFailures result (error_flag source.new) ErrorKind.UnexpectedEof`
#[doc(hidden)]
pub fn rapidhash_v1_source<R: Read, const PROTECTED: bool>(
    source: &mut Source<R>,
    len: u64,
    secrets: &RapidSecrets,
) -> io::Result<u64> {
    source.clear();
    let (seed, s) = (secrets.seed, &secrets.secrets);
    let answer = next_of::<R, PROTECTED>(source.reader_mut(), len, seed, s);
    source.settle(answer)
}

/// Returns the hash of the next `len` bytes of a reader, with the default seed and secrets.
///
/// ```
/// use rapidhash::v1::rapidhash_v1_file;
///
/// let mut text = b"something\nmore".as_slice();
/// assert_eq!(rapidhash_v1_file(&mut text, 10)?, 15965596575264898037);
/// assert_eq!(text, b"more");
/// # Ok::<(), std::io::Error>(())
/// ```
///
/// # Errors
///
/// The reader's own error, also for an interrupted read, which is not repeated. It is
/// `ErrorKind::UnexpectedEof` if the reader had fewer bytes.
///
/// # Proved
///
/// - `HashesNext (R.remaining «data».old) (R.remaining «data».new) len result (λ _. true) (default_hash (V1 false) standard)`
pub fn rapidhash_v1_file<R: Read + ?Sized>(data: &mut R, len: u64) -> io::Result<u64> {
    rapidhash_v1_file_inline::<R, false>(data, len, RapidSecrets::default_ref())
}

/// Returns the hash of the next `len` bytes of a reader, with the caller's seed and secrets.
///
/// ```
/// use rapidhash::v1::{RapidSecrets, rapidhash_v1_file_seeded, rapidhash_v1_seeded};
///
/// let secrets = RapidSecrets::seed(7);
/// let hash = rapidhash_v1_file_seeded(&mut b"hello world".as_slice(), 5, &secrets)?;
/// assert_eq!(hash, rapidhash_v1_seeded(b"hello", &secrets));
/// # Ok::<(), std::io::Error>(())
/// ```
///
/// # Errors
///
/// Returns the errors of [`rapidhash_v1_file`].
///
/// # Proved
///
/// - `HashesNext (R.remaining «data».old) (R.remaining «data».new) len result (λ _. true) (seeded_hash_v1 false standard secrets.now)`
pub fn rapidhash_v1_file_seeded<R: Read + ?Sized>(data: &mut R, len: u64, secrets: &RapidSecrets) -> io::Result<u64> {
    rapidhash_v1_file_inline::<R, false>(data, len, secrets)
}

/// Returns the plain or the protected hash of the next `len` bytes of a reader.
///
/// ```
/// use rapidhash::v1::{DEFAULT_RAPID_SECRETS, rapidhash_v1_file_inline, rapidhash_v1_inline};
///
/// let (mut text, secrets) = (b"hello".as_slice(), &DEFAULT_RAPID_SECRETS);
/// let hash = rapidhash_v1_file_inline::<_, true>(&mut text, 5, secrets)?;
/// assert_eq!(hash, rapidhash_v1_inline::<true, false, true, false>(b"hello", secrets));
/// # Ok::<(), std::io::Error>(())
/// ```
///
/// # Errors
///
/// Returns the errors of [`rapidhash_v1_file`].
///
/// # Proved
///
/// - `HashesNext (R.remaining «data».old) (R.remaining «data».new) len result (λ _. true) (seeded_hash_v1 false (options true PROTECTED) secrets.now)`
pub fn rapidhash_v1_file_inline<R: Read + ?Sized, const PROTECTED: bool>(
    data: &mut R,
    len: u64,
    secrets: &RapidSecrets,
) -> io::Result<u64> {
    let (seed, s) = (secrets.seed, &secrets.secrets);
    next_of::<R, PROTECTED>(data, len, seed, s).map_err(Stop::into_error)
}

/// Returns the hash: the body of every public call here.
fn next_of<R: Read + ?Sized, const PROTECTED: bool>(
    reader: &mut R,
    len: u64,
    seed: u64,
    secrets: &[u64; 3],
) -> Result<u64, Stop> {
    if len > SHORT as u64 {
        return long::<R, PROTECTED>(reader, len, seed, secrets);
    }
    let mut buffer = [0u8; SHORT];
    let bytes = &mut buffer[..len as usize];
    fill(reader, bytes)?;
    Ok(hash::<MIXED, NOT_COMPACT, PROTECTED, false>(bytes, seed, secrets))
}

/// Returns the hash of more bytes than the short buffer holds. It is out of line because of its
/// large buffer.
#[inline(never)]
fn long<R: Read + ?Sized, const PROTECTED: bool>(
    reader: &mut R,
    len: u64,
    seed: u64,
    secrets: &[u64; 3],
) -> Result<u64, Stop> {
    let start = seed ^ len;
    let mut buffer = [0u8; BUFFER];
    let (mut lanes, n) = fold_front::<R, 3, PROTECTED>(reader, &mut buffer, len, start, secrets)?;
    let last = &buffer[..n];
    let (joined, tail) = join_wide::<3, 0, NOT_COMPACT, PROTECTED>(&mut lanes, last, secrets);
    Ok(close_tail::<MIXED, PROTECTED>(tail, last, len, joined, secrets))
}
