// Made by scripts/rust_crate from crates/rapidsum/src/seed.rt: change that file.

//! Seeds as decimal numbers.

// Returns the number that decimal digits represent, if it has at most 64 bits.
fn number_of(digits: &[u8]) -> Option<u64> {
    let mut number = 0u64;
    for byte in digits {
        if !byte.is_ascii_digit() {
            return None;
        }
        let digit = u64::from(*byte - b'0');
        number = number.checked_mul(10)?.checked_add(digit)?;
    }
    Some(number)
}

/// Returns the number that a text represents: decimal digits, after a plus sign or not.
pub fn seed_of(text: &[u8]) -> Option<u64> {
    let digits = match text {
        [b'+', digits @ ..] => digits,
        _ => text,
    };
    if digits.is_empty() {
        None
    } else {
        number_of(digits)
    }
}
