//! What the replay calls beside `std`: errors of any type, and calls that old versions of `std` lack.

use std::fmt::Display;

/// A result whose error is of any type.
pub type Result<T, E = Box<dyn std::error::Error>> = std::result::Result<T, E>;

/// The error of a failed allocation, which ends a test.
pub type AllocError = Box<dyn std::error::Error>;

/// Returns an error with a message.
macro_rules! bail {
    ($($message:tt)*) => {
        return Err(format!($($message)*).into())
    };
}
pub(crate) use bail;

/// Says what failed.
pub trait Context<T> {
    /// Returns the value, or an error with a text before its own.
    fn context(self, text: impl Display) -> Result<T>;
}

impl<T, E: Display> Context<T> for std::result::Result<T, E> {
    fn context(self, text: impl Display) -> Result<T> {
        self.map_err(|error| format!("{text}: {error}").into())
    }
}

/// Hexadecimal digits.
pub mod hex {
    /// Returns the bytes of a text of digits.
    pub fn decode(digits: &str) -> super::Result<Vec<u8>> {
        let pairs = digits.as_bytes().chunks(2);
        let bytes = pairs.map(|pair| Ok(u8::from_str_radix(std::str::from_utf8(pair)?, 16)?));
        if digits.len() % 2 == 1 {
            super::bail!("half a byte in {digits}");
        }
        bytes.collect()
    }
}
