// Made by scripts/rust_crate from crates/rapidhash_portable/src/form.rt: change that file.

//! The forms of the portable hash, as the definition uses them, and the versions that users name.

use crate::replay::kit::*;

/// A portable hash.
#[derive(Debug, Clone, Copy, PartialEq, Eq)]
pub enum Form {
    /// V1, with or without the V1 bug, which hashes 48 bytes differently.
    V1(bool),
    /// V2, with its minor number: 0, 1 or 2.
    V2(u8),
    /// V3 and its relatives, with the number of lanes: 7 is V3, 5 is micro, 3 is nano.
    V3(usize),
}

/// The parts of a message: rows of a pair for each lane, then rows of three pairs, then a tail.
#[derive(Debug, Clone, Copy, PartialEq, Eq)]
pub struct Shape {
    /// The number of lanes.
    pub lanes: usize,
    /// The number of rows of a pair for each lane.
    pub rows: usize,
    /// The number of rows of three pairs after them.
    pub threes: usize,
}

/// The choices of a caller besides the form, the seed and the secrets.
#[derive(Debug, Clone, Copy, PartialEq, Eq)]
pub struct Options {
    /// Whether the two halves of the last product are mixed once more.
    pub avalanche: bool,
    /// Whether each half of a product is mixed with its factor.
    pub protected: bool,
}

/// A portable hash that users name.
#[derive(Debug, Clone, Copy, PartialEq, Eq)]
pub enum Version {
    /// V1, without the V1 bug.
    V1,
    /// V2.0.
    V2Minor0,
    /// V2.1.
    V2Minor1,
    /// V2.2.
    V2Minor2,
    /// V3.
    V3,
    /// V3 micro.
    V3Micro,
    /// V3 nano.
    V3Nano,
}

impl Version {
    /// Returns each version once.
    pub const fn all() -> [Self; 7] {
        [
            Version::V1,
            Version::V2Minor0,
            Version::V2Minor1,
            Version::V2Minor2,
            Version::V3,
            Version::V3Micro,
            Version::V3Nano,
        ]
    }

    /// Returns the form of the version in the definition.
    pub const fn form(self) -> Form {
        match self {
            Version::V1 => Form::V1(false),
            Version::V2Minor0 => Form::V2(0),
            Version::V2Minor1 => Form::V2(1),
            Version::V2Minor2 => Form::V2(2),
            Version::V3 => Form::V3(7),
            Version::V3Micro => Form::V3(5),
            Version::V3Nano => Form::V3(3),
        }
    }

    /// Returns the name of the version, such as `v2.0` or `v3-micro`.
    pub const fn name(self) -> &'static str {
        match self {
            Version::V1 => "v1",
            Version::V2Minor0 => "v2.0",
            Version::V2Minor1 => "v2.1",
            Version::V2Minor2 => "v2.2",
            Version::V3 => "v3",
            Version::V3Micro => "v3-micro",
            Version::V3Nano => "v3-nano",
        }
    }

    /// Returns the version with a name, if there is one.
    pub fn of_name(name: &str) -> Option<Self> {
        let versions = Version::all();
        versions.iter().find(|version| version.name() == name).copied()
    }
}
