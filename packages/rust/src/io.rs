//! Streams as writers, so that `io::copy` and `write!` hash the bytes that they write.

use crate::v3::{RapidStream, RapidStreamHasherLanes};
use std::io::{Result, Write};

/// Appends the written bytes to the message. Never fails.
///
/// ```
/// use rapidhash::v3::{rapidhash_v3, RapidStreamHasherV3, DEFAULT_RAPID_SECRETS};
/// use std::io::copy;
///
/// let mut stream = RapidStreamHasherV3::new(&DEFAULT_RAPID_SECRETS);
/// copy(&mut b"hello".as_slice(), &mut stream)?;
/// assert_eq!(stream.finish(), rapidhash_v3(b"hello"));
/// # Ok::<(), std::io::Error>(())
/// ```
impl<const LANES: usize, const AVALANCHE: bool, const PROTECTED: bool> Write
    for RapidStreamHasherLanes<'_, LANES, AVALANCHE, PROTECTED>
{
    #[inline]
    fn write(&mut self, bytes: &[u8]) -> Result<usize> {
        Self::write(self, bytes);
        Ok(bytes.len())
    }

    fn flush(&mut self) -> Result<()> {
        Ok(())
    }
}

/// Appends the written bytes to the message. Never fails.
impl Write for RapidStream<'_> {
    #[inline]
    fn write(&mut self, bytes: &[u8]) -> Result<usize> {
        Self::write(self, bytes);
        Ok(bytes.len())
    }

    fn flush(&mut self) -> Result<()> {
        Ok(())
    }
}
