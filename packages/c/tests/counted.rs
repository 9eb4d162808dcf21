//! The hashes of the Rust crate for C, whose instructions are counted. A pointer leads to the stated number of bytes.

extern crate rapidhash;

use rapidhash::{v1, v2, v3};
use std::ffi::CStr;
use std::os::raw::c_char;
use std::slice::from_raw_parts;

/// Returns the hash of a version. V1 has the first of the secrets.
unsafe fn hash<const COMPACT: bool>(name: &[u8], bytes: &[u8], secrets: &v3::RapidSecrets) -> u64 {
    match name {
        b"v1" => {
            let secrets = &*(secrets as *const v3::RapidSecrets as *const v1::RapidSecrets);
            v1::rapidhash_v1_inline::<true, COMPACT, false, false>(bytes, secrets)
        }
        b"v2_0" => v2::rapidhash_v2_inline::<0, true, COMPACT, false>(bytes, secrets),
        b"v2_1" => v2::rapidhash_v2_inline::<1, true, COMPACT, false>(bytes, secrets),
        b"v2_2" => v2::rapidhash_v2_inline::<2, true, COMPACT, false>(bytes, secrets),
        b"v3" => v3::rapidhash_v3_inline::<true, COMPACT, false>(bytes, secrets),
        b"v3_micro" => v3::rapidhash_v3_micro_inline::<true, false>(bytes, secrets),
        b"v3_nano" => v3::rapidhash_v3_nano_inline::<true, false>(bytes, secrets),
        b"v3_protected" => v3::rapidhash_v3_inline::<true, COMPACT, true>(bytes, secrets),
        _ => panic!("no version {:?}", name),
    }
}

/// Returns the hash of a version with secrets, from the compact code if the seed is odd.
#[no_mangle]
pub unsafe extern "C" fn rust_hash(
    name: *const c_char,
    bytes: *const u8,
    len: usize,
    secrets: &v3::RapidSecrets,
) -> u64 {
    let (name, bytes) = (CStr::from_ptr(name).to_bytes(), from_raw_parts(bytes, len));
    match secrets.seed % 2 {
        0 => hash::<false>(name, bytes, secrets),
        _ => hash::<true>(name, bytes, secrets),
    }
}
