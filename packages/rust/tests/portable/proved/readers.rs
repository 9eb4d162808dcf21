// Made by scripts/rust_crate from crates/test_portable/src/readers.rt: change that file.

//! The hashes over a reader: known values, ends and errors, and that a reader's hash is that of its
//! bytes.

mod faults;
mod known_length;
mod outcome;
mod to_the_end;
