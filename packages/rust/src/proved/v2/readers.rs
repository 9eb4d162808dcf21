// Made by scripts/rust_crate from crates/rapidhash_portable/src/v2/readers.rt: change that file.

//! V2 of the next bytes of a reader, whose number is known.

use super::RapidSecrets;
use crate::kernel::v2::{close_tail, hash};
use crate::kernel::{MIXED, NOT_COMPACT};
use crate::known_length::{BUFFER, SHORT, fill, fold_front};
use crate::lanes::join_mixed;
use crate::reader::{Source, Stop};
use std::io;
use std::io::Read;

/// Returns the hash of the next `len` bytes of the reader: that of
/// [`rapidhash_v2_inline`](super::rapidhash_v2_inline) with `AVALANCHE`. It reads no byte after
/// them, and nothing at all for a `len` of 0. A call does not compile if `MINOR` is above 2.
///
/// It uses 8 KiB of stack, and above 8192 bytes 64 KiB more.
///
/// ```
/// use rapidhash::reader::Source;
/// use rapidhash::v2::{DEFAULT_RAPID_SECRETS, rapidhash_v2_2, rapidhash_v2_source};
///
/// let mut source = Source::new(b"hello world".as_slice());
/// let hash = rapidhash_v2_source::<&[u8], 2, false>(&mut source, 5, &DEFAULT_RAPID_SECRETS)?;
/// assert_eq!(hash, rapidhash_v2_2(b"hello"));
/// # Ok::<(), std::io::Error>(())
/// ```
///
/// # Errors
///
/// If the error flag is set after the call, the error is the reader's own, also for an interrupted
/// read. Otherwise it is `ErrorKind::UnexpectedEof`: the reader had fewer bytes, and all of them
/// were read.
///
/// # Proved
///
/// - `HashesNext (R.remaining (reader_of source.old)) (R.remaining (reader_of source.new)) len result (λ _. error_flag source.new) (seeded_hash (V2 MINOR) (options true PROTECTED) secrets.now)`
/// - `FlagsFailures result (error_flag source.new) ErrorKind.UnexpectedEof`
#[doc(hidden)]
pub fn rapidhash_v2_source<R: Read, const MINOR: u8, const PROTECTED: bool>(
    source: &mut Source<R>,
    len: u64,
    secrets: &RapidSecrets,
) -> io::Result<u64> {
    source.clear();
    let (seed, s) = (secrets.seed, &secrets.secrets);
    let answer = next_of::<R, MINOR, PROTECTED>(source.reader_mut(), len, seed, s);
    source.settle(answer)
}

/// Returns the V2.2 hash of the next `len` bytes of a reader, with the default seed and secrets.
///
/// ```
/// use rapidhash::v2::{rapidhash_v2_2, rapidhash_v2_2_file};
///
/// let mut text = b"hello world".as_slice();
/// assert_eq!(rapidhash_v2_2_file(&mut text, 5)?, rapidhash_v2_2(b"hello"));
/// assert_eq!(text, b" world");
/// # Ok::<(), std::io::Error>(())
/// ```
///
/// # Errors
///
/// The reader's own error, also for an interrupted read, which is not repeated. It is
/// `ErrorKind::UnexpectedEof` if the reader had fewer bytes.
///
/// # Proved
///
/// - `HashesNext (R.remaining «data».old) (R.remaining «data».new) len result (λ _. true) (default_hash (V2 2) standard)`
pub fn rapidhash_v2_2_file<R: Read + ?Sized>(data: &mut R, len: u64) -> io::Result<u64> {
    rapidhash_v2_file_inline::<R, 2, false>(data, len, RapidSecrets::default_ref())
}

/// Returns the V2.2 hash of the next `len` bytes of a reader, with the caller's seed and
/// secrets.
///
/// ```
/// use rapidhash::v2::{RapidSecrets, rapidhash_v2_2_file_seeded, rapidhash_v2_2_seeded};
///
/// let secrets = RapidSecrets::seed(7);
/// let hash = rapidhash_v2_2_file_seeded(&mut b"hello world".as_slice(), 5, &secrets)?;
/// assert_eq!(hash, rapidhash_v2_2_seeded(b"hello", &secrets));
/// # Ok::<(), std::io::Error>(())
/// ```
///
/// # Errors
///
/// Returns the errors of [`rapidhash_v2_2_file`].
///
/// # Proved
///
/// - `HashesNext (R.remaining «data».old) (R.remaining «data».new) len result (λ _. true) (seeded_hash (V2 2) standard secrets.now)`
pub fn rapidhash_v2_2_file_seeded<R: Read + ?Sized>(data: &mut R, len: u64, secrets: &RapidSecrets) -> io::Result<u64> {
    rapidhash_v2_file_inline::<R, 2, false>(data, len, secrets)
}

/// Returns the plain or the protected hash of the next `len` bytes of a reader. A call does not
/// compile if `MINOR` is above 2.
///
/// ```
/// use rapidhash::v2::{DEFAULT_RAPID_SECRETS, rapidhash_v2_file_inline, rapidhash_v2_inline};
///
/// let (mut text, secrets) = (b"hello".as_slice(), &DEFAULT_RAPID_SECRETS);
/// let hash = rapidhash_v2_file_inline::<_, 1, false>(&mut text, 5, secrets)?;
/// assert_eq!(hash, rapidhash_v2_inline::<1, true, false, false>(b"hello", secrets));
/// # Ok::<(), std::io::Error>(())
/// ```
///
/// # Errors
///
/// Returns the errors of [`rapidhash_v2_2_file`].
///
/// # Proved
///
/// - `HashesNext (R.remaining «data».old) (R.remaining «data».new) len result (λ _. true) (seeded_hash (V2 MINOR) (options true PROTECTED) secrets.now)`
pub fn rapidhash_v2_file_inline<R: Read + ?Sized, const MINOR: u8, const PROTECTED: bool>(
    data: &mut R,
    len: u64,
    secrets: &RapidSecrets,
) -> io::Result<u64> {
    let (seed, s) = (secrets.seed, &secrets.secrets);
    next_of::<R, MINOR, PROTECTED>(data, len, seed, s).map_err(Stop::into_error)
}

/// Returns the hash: the body of every public call here.
fn next_of<R: Read + ?Sized, const MINOR: u8, const PROTECTED: bool>(
    reader: &mut R,
    len: u64,
    seed: u64,
    secrets: &[u64; 7],
) -> Result<u64, Stop> {
    prove!(MINOR <= 2, "MINOR must be 0, 1 or 2");
    if len > SHORT as u64 {
        return long::<R, MINOR, PROTECTED>(reader, len, seed, secrets);
    }
    let mut buffer = [0u8; SHORT];
    let bytes = &mut buffer[..len as usize];
    fill(reader, bytes)?;
    Ok(hash::<MINOR, MIXED, NOT_COMPACT, PROTECTED>(bytes, seed, secrets))
}

/// Returns the hash of more bytes than the short buffer holds. It is out of line because of its
/// large buffer.
#[inline(never)]
fn long<R: Read + ?Sized, const MINOR: u8, const PROTECTED: bool>(
    reader: &mut R,
    len: u64,
    seed: u64,
    secrets: &[u64; 7],
) -> Result<u64, Stop> {
    let start = seed ^ len;
    let mut buffer = [0u8; BUFFER];
    let (mut lanes, n) = fold_front::<R, 7, PROTECTED>(reader, &mut buffer, len, start, secrets)?;
    let last = &buffer[..n];
    let (joined, tail) = join_mixed::<NOT_COMPACT, PROTECTED>(&mut lanes, last, secrets);
    Ok(close_tail::<MIXED, PROTECTED>(tail, last, len, joined, secrets))
}
