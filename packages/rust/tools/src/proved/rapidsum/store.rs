// Made by scripts/rust_crate from crates/rapidsum/src/store.rt: change that file.

//! A source of files, and the hash of a file.

use crate::algorithm::Algorithm;
use rapidhash_tool::kit::alloc::Allocator;
use std::io;
use std::io::Read;

/// A source of files: a disk, or a test.
pub trait Store {
    /// An open file.
    type Reader: Read;

    // The bytes of the file with a name, if they are known.

    /// Opens the file with a name.
    fn open(&self, name: &[u8]) -> io::Result<Self::Reader>;

    /// Returns the number of bytes of an open file, if it is known before they are read.
    fn length(&self, reader: &Self::Reader) -> Option<u64>;
}

/// Returns the hash of the file with a name.
///
/// # Errors
///
/// If the file cannot be opened, a read fails, or an allocation for V1 or V2 fails. V1 and V2
/// refuse a file that has more or fewer bytes than its length.
pub fn hash_named<S: Store, A: Allocator + Copy>(
    alloc: A,
    store: &S,
    name: &[u8],
    algorithm: Algorithm,
) -> io::Result<u64> {
    let reader = store.open(name)?;
    let length = store.length(&reader);
    algorithm.hash(alloc, reader, length)
}
