//! The interface of the crate `rapidhash` 4.5.1 over the proved hashes of `yervound-rapidhash`, for
//! `[patch.crates-io]`.
//!
//! ```
//! use rapidhash::v3::rapidhash_v3;
//!
//! const HASH: u64 = rapidhash_v3(b"hello");
//! assert_eq!(HASH, 3327445792987248966);
//! ```
#![cfg_attr(not(feature = "std"), no_std)]
#![forbid(unsafe_code)]
#![deny(missing_docs)]
// Only build.rs sets the names of what an old compiler lacks.
#![allow(unknown_lints, unexpected_cfgs)]
// What the crate deprecates is here too.
#![allow(deprecated)]

pub use proved::inner;
#[cfg(feature = "std")]
pub use proved::{HashMapExt, HashSetExt, RapidHashMap, RapidHashSet};

#[cfg(feature = "std")]
mod files;
pub mod rng;
pub mod v2;

/// The hasher and the states of maps, without the avalanche.
pub mod fast {
    pub use proved::fast::*;

    #[cfg(feature = "std")]
    #[doc(no_inline)]
    pub use proved::{HashMapExt, HashSetExt, RapidHashMap, RapidHashSet};
}

/// The hasher and the states of maps, with the avalanche.
pub mod quality {
    pub use proved::quality::*;
}

/// rapidhash V1.
pub mod v1 {
    #[cfg(feature = "std")]
    pub use crate::files::{rapidhash_v1_file, rapidhash_v1_file_inline, rapidhash_v1_file_seeded};
    pub use proved::v1::{DEFAULT_RAPID_SECRETS, RapidSecrets, rapidhash_v1, rapidhash_v1_inline, rapidhash_v1_seeded};
}

/// rapidhash V3, micro and nano.
pub mod v3 {
    pub use proved::v3::{
        DEFAULT_RAPID_SECRETS, RapidSecrets, RapidStreamHasherInlineV3, RapidStreamHasherV3, rapidhash_v3,
        rapidhash_v3_inline, rapidhash_v3_micro_inline, rapidhash_v3_nano_inline, rapidhash_v3_seeded,
    };
    #[cfg(feature = "std")]
    pub use proved::v3::{rapidhash_v3_file, rapidhash_v3_file_inline, rapidhash_v3_file_seeded};
}
#[cfg(all(
    any(feature = "getrandom_03", feature = "getrandom_04"),
    any(not(feature = "std"), all(target_family = "wasm", target_os = "unknown"))
))]
compile_error!(
    "rapidhash: the features getrandom_03 and getrandom_04 need the feature `std` and a system with random words: \
     leave them out, and call `set_random_words` of yervound-rapidhash with the words of your own source"
);
