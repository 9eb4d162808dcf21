// Made by scripts/rust_crate from crates/test_portable/src/readers/faults.rt: change that file.

//! What a source does behind a read that failed.

use crate::fakes::CountingReader;
use rapidhash::reader::Source;
use rapidhash::v1::{DEFAULT_RAPID_SECRETS, rapidhash_v1, rapidhash_v1_source};
use std::io::ErrorKind;
type Fail = Box<dyn std::error::Error>;

/// A source whose reader returns a byte per read, and fails at one of them.
fn source(fails_at: u64, kind: ErrorKind) -> Source<CountingReader<'static>> {
    Source::new(CountingReader::failing(b"something\n", 1, fails_at, kind))
}

// The third read fails and consumes no byte: two are gone, and the next call clears the flag.
#[test]
fn the_next_call_goes_on_behind_a_fault() -> Result<(), Fail> {
    let secrets = &DEFAULT_RAPID_SECRETS;
    let mut source = source(3, ErrorKind::BrokenPipe);
    let first = rapidhash_v1_source::<CountingReader, false>(&mut source, 10, secrets);
    assert!(first.is_err());
    assert!(source.failed());
    let second = rapidhash_v1_source::<CountingReader, false>(&mut source, 8, secrets)?;
    assert!(second == rapidhash_v1(b"mething\n"));
    assert!(!source.failed());
    Ok(())
}

/// A source returns what its reader returns. A failed read sets its error flag, which stays
/// set until it is cleared.
#[test]
fn a_failed_read_sets_the_flag() {
    let mut source = source(2, ErrorKind::TimedOut);
    let mut buffer = [0; 4];
    assert!(source.read(&mut buffer).ok() == Some(1));
    assert!(!source.failed());
    let failed = source.read(&mut buffer).map_err(|error| error.kind());
    assert!(failed == Err(ErrorKind::TimedOut));
    assert!(source.failed());
    assert!(source.read(&mut buffer[1..]).ok() == Some(1));
    assert!(buffer == [b's', b'o', 0, 0]);
    assert!(source.failed());
    source.clear();
    assert!(!source.failed());
    let reader = source.into_inner();
    assert!((reader.reads, reader.longest, reader.left.len()) == (3, 4, 8));
}
