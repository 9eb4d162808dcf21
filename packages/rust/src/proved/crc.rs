// Made by scripts/rust_crate from crates/rapidhash_portable/src/crc.rt: change that file.

//! CRC-64/XZ, with which saved streams are checked.

/// The polynomial, with its highest power in the lowest bit.
const POLYNOMIAL: u64 = 0xc96c_5795_d787_0f42;

/// Returns the register after a shift.
fn shift(register: u64) -> u64 {
    if register & 1 == 1 { register >> 1 ^ POLYNOMIAL } else { register >> 1 }
}

/// Returns the register after a byte. Compilers that know the CRC in this form use a table.
fn add_byte(register: u64, byte: u8) -> u64 {
    let mut shifted = register ^ byte as u64;
    for _ in 0..8u32 {
        shifted = shift(shifted);
    }
    shifted
}

/// Returns the CRC of the bytes.
pub(crate) fn crc64(bytes: &[u8]) -> u64 {
    !bytes.iter().fold(u64::MAX, |register, &byte| add_byte(register, byte))
}
