// Made by scripts/rust_crate from crates/test_replay/src/bodies.rt: change that file.

//! The library's hashes behind one call, chosen by a version and options that are values.

use crate::replay::kit::*;

use crate::replay::proved::form::{Options, Version};
use rapidhash::v1::{self, rapidhash_v1_inline};
use rapidhash::v2::rapidhash_v2_inline;
use rapidhash::v3::{self, rapidhash_v3_inline, rapidhash_v3_micro_inline, rapidhash_v3_nano_inline};

/// A portable hash that the library has.
#[derive(Clone, Copy)]
pub enum Tested {
    /// A version that users name.
    Named(Version),
    /// V1 with the V1 bug.
    V1Bug,
}

impl Tested {
    /// All of them.
    pub const ALL: [Tested; 8] = [
        Tested::Named(Version::V1),
        Tested::V1Bug,
        Tested::Named(Version::V2Minor0),
        Tested::Named(Version::V2Minor1),
        Tested::Named(Version::V2Minor2),
        Tested::Named(Version::V3),
        Tested::Named(Version::V3Micro),
        Tested::Named(Version::V3Nano),
    ];
}

/// Returns the options of a name, and what is before them: `_raw` is without the avalanche.
pub fn options_of(name: &str) -> (&str, Options) {
    let (name, protected) = match name.strip_suffix("_protected") {
        Some(name) => (name, true),
        None => (name, false),
    };
    let (name, avalanche) = match name.strip_suffix("_raw") {
        Some(name) => (name, false),
        None => (name, true),
    };
    (name, Options { avalanche, protected })
}

/// Returns a version by the name of its call in C, and its options.
pub fn version_of(name: &str) -> Result<(Tested, Options)> {
    let (name, options) = options_of(name);
    let version = match name {
        "v1_bug" => return Ok((Tested::V1Bug, options)),
        "v1" => Version::V1,
        "v2_0" => Version::V2Minor0,
        "v2_1" => Version::V2Minor1,
        "v2_2" => Version::V2Minor2,
        "v3" => Version::V3,
        "v3_micro" => Version::V3Micro,
        "v3_nano" => Version::V3Nano,
        _ => bail!("no version {name}"),
    };
    Ok((Tested::Named(version), options))
}

/// A seed and secrets for V1, and for the others.
#[derive(Clone, Copy)]
pub struct Secrets {
    /// Those of V1.
    pub three: v1::RapidSecrets,
    /// Those of the others.
    pub seven: v3::RapidSecrets,
}

/// Returns the library's hash of a version.
fn hash<const AVALANCHE: bool, const COMPACT: bool, const PROTECTED: bool>(
    tested: Tested,
    secrets: &Secrets,
    bytes: &[u8],
) -> u64 {
    let three = &secrets.three;
    let seven = &secrets.seven;
    let version = match tested {
        Tested::Named(version) => version,
        Tested::V1Bug => {
            return rapidhash_v1_inline::<AVALANCHE, COMPACT, PROTECTED, true>(bytes, three);
        }
    };
    match version {
        Version::V1 => rapidhash_v1_inline::<AVALANCHE, COMPACT, PROTECTED, false>(bytes, three),
        Version::V2Minor0 => rapidhash_v2_inline::<0, AVALANCHE, COMPACT, PROTECTED>(bytes, seven),
        Version::V2Minor1 => rapidhash_v2_inline::<1, AVALANCHE, COMPACT, PROTECTED>(bytes, seven),
        Version::V2Minor2 => rapidhash_v2_inline::<2, AVALANCHE, COMPACT, PROTECTED>(bytes, seven),
        Version::V3 => rapidhash_v3_inline::<AVALANCHE, COMPACT, PROTECTED>(bytes, seven),
        Version::V3Micro => rapidhash_v3_micro_inline::<AVALANCHE, PROTECTED>(bytes, seven),
        Version::V3Nano => rapidhash_v3_nano_inline::<AVALANCHE, PROTECTED>(bytes, seven),
    }
}

/// Returns the library's hash of a version and options. Micro and nano have no compact code.
pub fn body<const COMPACT: bool>(tested: Tested, options: Options, secrets: &Secrets, bytes: &[u8]) -> u64 {
    match (options.avalanche, options.protected) {
        (true, true) => hash::<true, COMPACT, true>(tested, secrets, bytes),
        (true, false) => hash::<true, COMPACT, false>(tested, secrets, bytes),
        (false, true) => hash::<false, COMPACT, true>(tested, secrets, bytes),
        (false, false) => hash::<false, COMPACT, false>(tested, secrets, bytes),
    }
}

/// Returns whether the library's hash is the expected one, by unrolled and by compact code.
pub fn agrees(tested: Tested, options: Options, secrets: &Secrets, bytes: &[u8], expected: u64) -> bool {
    body::<false>(tested, options, secrets, bytes) == expected
        && body::<true>(tested, options, secrets, bytes) == expected
}
