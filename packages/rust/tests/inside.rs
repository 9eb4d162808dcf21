//! Tests the errors of readers, which no contract and no hash shows.
#![cfg(feature = "std")]

use rapidhash::{v1, v2, v3};
use std::io::{Error, ErrorKind, Read, Result};

/// A reader that always fails and counts its reads.
struct Broken {
    kind: ErrorKind,
    reads: u64,
}

impl Read for Broken {
    fn read(&mut self, _: &mut [u8]) -> Result<usize> {
        self.reads += 1;
        Err(Error::new(self.kind, "the disk is gone"))
    }
}

/// The error is the reader's own, with its text, and a failed read is not retried.
#[test]
fn errors_are_those_of_the_reader() {
    use ErrorKind::{BrokenPipe, Interrupted, Other, TimedOut, UnexpectedEof, WouldBlock};
    let calls: [fn(&mut Broken) -> Result<u64>; 4] = [
        |reader| v1::rapidhash_v1_file(reader, 10),
        |reader| v1::rapidhash_v1_file(reader, 10_000),
        |reader| v2::rapidhash_v2_2_file(reader, 10),
        |reader| v3::rapidhash_v3_file(reader),
    ];
    for kind in [BrokenPipe, Interrupted, Other, TimedOut, UnexpectedEof, WouldBlock] {
        for call in calls {
            let mut reader = Broken { kind, reads: 0 };
            let error = call(&mut reader).unwrap_err();
            assert_eq!((error.kind(), error.to_string()), (kind, "the disk is gone".to_owned()));
            assert_eq!(reader.reads, 1);
        }
    }
}
