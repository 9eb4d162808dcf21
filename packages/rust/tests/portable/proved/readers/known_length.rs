// Made by scripts/rust_crate from crates/test_portable/src/readers/known_length.rt: change that file.

//! The hashes of a number of bytes of a reader, V1 and V2: the bytes that each requests, and the
//! result if a read fails.

mod form;

use crate::fakes::CountingReader;
use crate::readers::outcome::Outcome;
use form::{FORMS, Form};
use std::io::ErrorKind;

/// Hashes ten bytes, one per read. Each read in turn fails: its own error is returned, the bytes
/// before it are gone, and no read follows.
fn each_of_ten_reads_fails(form: Form, kind: ErrorKind) {
    for fails_at in 1..11u64 {
        let reader = CountingReader::failing(b"something\nmore", 1, fails_at, kind);
        let want = Outcome {
            returned: Err(kind),
            reads: fails_at,
            longest: 10,
            left: 15usize.saturating_sub(fails_at as usize),
        };
        assert!(form.outcome(reader, 10) == want, "{form:?}");
    }
}

/// A failed read is not retried, even if it was only interrupted.
#[test]
fn a_failed_read_is_returned_at_once() {
    for form in FORMS {
        each_of_ten_reads_fails(form, ErrorKind::BrokenPipe);
        each_of_ten_reads_fails(form, ErrorKind::Interrupted);
    }
}

/// Hashes 140000 bytes in three reads of a reader that returns all requested bytes. Each of them in
/// turn fails, and no read follows.
fn each_of_three_reads_fails(form: Form, bytes: &[u8]) {
    for fails_at in 1..4u64 {
        let kind = ErrorKind::Interrupted;
        let outcome = form.outcome(CountingReader::failing(bytes, usize::MAX, fails_at, kind), 140000);
        assert!(outcome.returned == Err(kind), "{form:?}");
        assert!(outcome.reads == fails_at, "{form:?}");
    }
}

#[test]
fn a_failed_read_of_a_long_message() {
    let bytes = [3; 140000];
    for form in FORMS {
        each_of_three_reads_fails(form, &bytes);
    }
}

/// A reader that returns all requested bytes, with two bytes after the length. At most 8192 bytes
/// are read at once, and more in pieces of 65520 bytes and a last one of at most 65535.
fn reads_of_lengths(form: Form, bytes: &[u8]) {
    for (n, reads, longest) in [
        (0usize, 0u64, 0usize),
        (1, 1, 1),
        (8192, 1, 8192),
        (8193, 1, 8193),
        (65535, 1, 65535),
        (65536, 2, 65520),
        (140000, 3, 65520),
    ] {
        let (message, behind) = bytes.split_at(n.min(bytes.len()));
        let want = Outcome { returned: Ok(form.of_bytes(message)), reads, longest, left: behind.len() };
        let reader = CountingReader::new(bytes, usize::MAX);
        assert!(form.outcome(reader, n as u64) == want, "{form:?} {n}");
    }
}

/// There is no read after all bytes were read, and none at all for no byte.
#[test]
fn few_reads() {
    let bytes = [3; 140002];
    for form in FORMS {
        reads_of_lengths(form, &bytes);
    }
}

/// Over a reader of one byte per read, each byte is a read. If it ends one byte early, the read
/// that returns 0 is the last one.
fn reads_of_single_bytes(form: Form, bytes: &[u8]) {
    for n in [0usize, 1, 16, 17, 300, 9000] {
        let (message, behind) = bytes.split_at(n.min(bytes.len()));
        let want = Outcome { returned: Ok(form.of_bytes(message)), reads: n as u64, longest: n, left: behind.len() };
        let reader = CountingReader::new(bytes, 1);
        assert!(form.outcome(reader, n as u64) == want, "{form:?} {n}");
        let want = Outcome { returned: Err(ErrorKind::UnexpectedEof), reads: n as u64 + 1, longest: n + 1, left: 0 };
        let reader = CountingReader::new(message, 1);
        assert!(form.outcome(reader, n as u64 + 1) == want, "{form:?} {n}");
    }
}

#[test]
fn no_read_after_the_last_byte() {
    let bytes = [3; 9001];
    for form in FORMS {
        reads_of_single_bytes(form, &bytes);
    }
}

/// The hash of every length up to 1024 is that of the bytes in memory, however many bytes a read
/// returns.
fn lengths_agree(form: Form, bytes: &[u8]) {
    for n in 0..1025usize {
        let (message, _) = bytes.split_at(n.min(bytes.len()));
        let outcome = form.outcome(CountingReader::new(bytes, n % 7 + 1), n as u64);
        assert!(outcome.returned == Ok(form.of_bytes(message)), "{form:?} {n}");
    }
}

#[test]
fn every_length_up_to_1024() {
    let mut bytes = [0; 1025];
    for i in 0..1025usize {
        bytes[i] = (i * i % 251) as u8;
    }
    for form in FORMS {
        lengths_agree(form, &bytes);
    }
}

/// A length beyond that of every reader is an early end.
#[test]
fn a_length_of_64_bits() {
    for form in FORMS {
        let reader = CountingReader::new(b"abc", usize::MAX);
        let returned = form.outcome(reader, u64::MAX).returned;
        assert!(returned == Err(ErrorKind::UnexpectedEof), "{form:?}");
    }
}
