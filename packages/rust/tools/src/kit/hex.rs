//! Hexadecimal digits.

/// The error of a text that is no digits.
pub struct FromHexError;

/// Writes the lower-case digits of bytes.
pub fn encode_to_slice(bytes: [u8; 8], digits: &mut [u8; 16]) -> Result<(), FromHexError> {
    let digit = |nibble: u8| b"0123456789abcdef"[usize::from(nibble)];
    for (pair, byte) in digits.chunks_exact_mut(2).zip(bytes) {
        pair[0] = digit(byte >> 4);
        pair[1] = digit(byte & 15);
    }
    Ok(())
}

/// What digits can be read as.
pub trait FromHex: Sized {
    /// Reads digits in either case.
    fn from_hex(digits: &[u8]) -> Result<Self, FromHexError>;
}

impl FromHex for [u8; 8] {
    fn from_hex(digits: &[u8]) -> Result<Self, FromHexError> {
        let value = |digit: u8| char::from(digit).to_digit(16).ok_or(FromHexError);
        let mut bytes = [0; 8];
        if digits.len() != 16 {
            return Err(FromHexError);
        }
        for (byte, pair) in bytes.iter_mut().zip(digits.chunks_exact(2)) {
            *byte = (value(pair[0])? << 4 | value(pair[1])?) as u8;
        }
        Ok(bytes)
    }
}
