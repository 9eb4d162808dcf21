// Made by scripts/rust_crate from crates/rapidhash_tool/src/version.rt: change that file.

//! The versions of the tool, and the plans that its arguments can select.

use crate::command_line::{has, has_name};
use rapidhash_tool::form::Version;

/// A minor version of V2.
#[derive(Debug, Clone, Copy, PartialEq, Eq)]
pub enum Minor {
    /// V2.0.
    M0,
    /// V2.1.
    M1,
    /// V2.2.
    M2,
}

/// A version of the portable hash, as the arguments select it.
#[derive(Debug, Clone, Copy, PartialEq, Eq)]
pub enum RapidhashVersion {
    /// V1, without the V1 bug.
    V1 {
        /// Whether each product is mixed with its factors.
        protected: bool,
    },
    /// V2, in one of its minor versions.
    V2 {
        /// Whether each product is mixed with its factors.
        protected: bool,
        /// The minor version.
        version: Minor,
    },
    /// V3.
    V3 {
        /// Whether each product is mixed with its factors.
        protected: bool,
    },
    /// V3 micro.
    V3Micro {
        /// Whether each product is mixed with its factors.
        protected: bool,
    },
    /// V3 nano.
    V3Nano {
        /// Whether each product is mixed with its factors.
        protected: bool,
    },
}

/// The plan that the arguments select.
#[derive(Debug, Clone, Copy, PartialEq, Eq)]
pub enum Plan {
    /// To print the help.
    Help,
    /// Nothing: the arguments name two versions.
    Refused,
    /// To print a hash.
    Run {
        /// The version to hash by.
        version: RapidhashVersion,
        /// The index of the argument that names the file, with the program's name at index 0. If
        /// there is none, standard input is hashed.
        file: Option<usize>,
    },
}

impl RapidhashVersion {
    /// Returns the version that the arguments after the program's name select: V3 if they name
    /// none, and `None` if they name two. A version named twice counts once, `--protected` may be
    /// at any position, and all other arguments are ignored, also `--help`.
    pub fn new(args: &[String]) -> Option<Self> {
        let protected = has(args, "--protected");
        let mut chosen = None;
        for version in Version::all() {
            if has_name(args, version) {
                if chosen.is_some() {
                    return None;
                }
                chosen = Some(version);
            }
        }
        let version = chosen.unwrap_or(Version::V3);
        Some(RapidhashVersion::of(version, protected))
    }

    /// Returns whether the version needs the number of bytes before it hashes the first: V1 and V2
    /// read standard input to its end, and use a file's length.
    pub fn needs_length(&self) -> bool {
        matches!(
            self,
            RapidhashVersion::V1 { .. } | RapidhashVersion::V2 { .. }
        )
    }

    // The selection of a version.
    fn of(version: Version, protected: bool) -> Self {
        match version {
            Version::V1 => RapidhashVersion::V1 { protected },
            Version::V2Minor0 => RapidhashVersion::V2 {
                protected,
                version: Minor::M0,
            },
            Version::V2Minor1 => RapidhashVersion::V2 {
                protected,
                version: Minor::M1,
            },
            Version::V2Minor2 => RapidhashVersion::V2 {
                protected,
                version: Minor::M2,
            },
            Version::V3 => RapidhashVersion::V3 { protected },
            Version::V3Micro => RapidhashVersion::V3Micro { protected },
            Version::V3Nano => RapidhashVersion::V3Nano { protected },
        }
    }
}
