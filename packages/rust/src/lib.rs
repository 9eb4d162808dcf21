//! The rapidhash family of 64-bit hashes, with the values of version 4.5.1 of the crate `rapidhash`.
//!
//! The code is that of a proved library, without its contracts. A checker has proved, for every
//! input, that each hash is the value of a single definition. The README states what that covers.
//!
//! ```
//! use rapidhash::v3::{rapidhash_v3, RapidStreamHasherV3, DEFAULT_RAPID_SECRETS};
//!
//! assert_eq!(rapidhash_v3(b"hello"), 3327445792987248966);
//!
//! let mut stream = RapidStreamHasherV3::new(&DEFAULT_RAPID_SECRETS);
//! stream.write(b"hel");
//! stream.write(b"lo");
//! assert_eq!(stream.finish(), 3327445792987248966);
//! ```
//!
//! What a call ensures stands under "Proved", in the words of its contract in Rattle: `x.now` is the value behind the
//! reference `x`, and `x.old` and `x.new` are those before and after the call.
//!
//! # Choosing
//!
//! | for | use |
//! |---|---|
//! | values that are stored or sent | [`v3::rapidhash_v3`]; [`v3::RapidStreamHasherV3`] in pieces, `v3::rapidhash_v3_file` for a reader |
//! | less code, with other values above 48 bytes | [`v3::rapidhash_v3_nano_inline`] |
//! | less code, with the values of V3 | V3 with `COMPACT`: [`v3::rapidhash_v3_inline`] |
//! | a key of several fields, the same in every language | [`key::hash`] |
//! | values that older programs stored | [`v1`], [`v2`] |
//! | maps and sets | `RapidHashMap`, `RapidHashSet`, or those of other crates with [`fast::RandomState`] |
//! | tables, filters and sketches, which use the bits of a hash as they are | [`quality::RandomState`] |
//! | keys whose place must be the same in each run | [`quality::SeedableState::custom`] |
//! | keys of strangers, where an attack would do harm | the states of std, whose hash is keyed |
//!
//! The hashes of [`v1`], [`v2`] and [`v3`] have the same value on every machine and in every version. Those of
//! [`fast`], [`quality`] and [`inner`] are for memory.
//!
//! In memory, integers wait until 128 bits of them are there, while bytes are absorbed at once. So a hash does not show
//! whether an integer came before or after bytes: a hasher returns the same for `write_u8(1)` and `write(b"x")` in
//! either order. Since a text ends with the byte 255, `(255u8, "x")` and `("x", 255u8)` have the same hash;
//! `(1u8, "x")` and `("x", 1u8)` differ.
//!
//! # Security
//!
//! No hash here is cryptographic. Whoever can choose the keys of a map can choose keys that have the same hash, so that
//! each step of the map looks at all of them. This attack is called `HashDoS`. It needs the secrets: a word of a key
//! that equals a secret makes a product 0, and then the seed does not matter. So a seed protects only with secret
//! secrets, and whoever sees hashes may still find both. How hard that is, nobody has shown.
//!
//! | state, or secrets | seed | secrets |
//! |---|---|---|
//! | `RapidHashMap`, `RandomState`, `SeedableState::random` | of each state | of the process |
//! | `GlobalState` | of the process | of the process |
//! | `SeedableState::new`, [`v3::RapidSecrets::random`] | the caller's; of each call | of the process |
//! | `SeedableState::custom`, [`v3::RapidSecrets::seed`] | the caller's | the caller's |
//! | `SeedableState::fixed`, `RapidHasher::default`, `DEFAULT_RAPID_SECRETS` | public | public: no protection |
//! | `RapidHasher::new`, [`v3::RapidSecrets::seed_cpp`] | the caller's | public: no protection |
//!
//! The secrets and seeds of a process are made from two words:
//!
//! - With the feature `std`, the words are random: those that the system gives std's maps. On wasm32-unknown-unknown it
//!   gives none, and std's words are the same in each run.
//! - Without `std`, they come from the address at which the program was loaded. If the system does not choose it at
//!   random, they are the same in each run.
//! - In both cases a program can add its own: `set_random_words`. Without `std`, they replace those of the address.
//!
//! # Versions
//!
//! The crate needs Rust 1.63, and a newer Rust is a new minor version. From Rust 1.83 on, the hashes of a slice are
//! `const fn`. No version changes a value of [`v1`], [`v2`] or [`v3`]. A minor version may change those of the hasher
//! in memory; today they are those of the crate `rapidhash` 4.5.1 on 64-bit machines. A major version changes or
//! removes names. What is hidden here may change in each version.
//!
//! Without the default feature `std`, the crate needs only `core`, and has no readers and no maps.
#![cfg_attr(not(feature = "std"), no_std)]
#![cfg_attr(docsrs, feature(doc_cfg))]
#![cfg_attr(docsrs, doc(auto_cfg(hide(rapidhash_old_const, rapidhash_no_diagnostic, rapidhash_no_once_lock))))]
#![forbid(unsafe_code)]
#![deny(missing_docs)]
// Proofs use array indices, and casts that they show to lose nothing. The generator's `next` is not an iterator's.
#![allow(clippy::needless_range_loop, clippy::should_implement_trait, clippy::cast_lossless)]
#![allow(clippy::cast_possible_truncation, clippy::cast_sign_loss, clippy::checked_conversions)]
// Lifetimes have names, and values of 8 bytes are borrowed, as contracts refer to them.
#![allow(clippy::needless_lifetimes, clippy::trivially_copy_pass_by_ref)]
// Measured: hashes are inlined into their callers, and a large buffer of a reader is on the stack.
#![allow(clippy::inline_always, clippy::large_stack_arrays)]
// The maps' traits are for the crate's own hasher. `const` depends on the compiler.
#![allow(clippy::implicit_hasher, clippy::incompatible_msrv)]
// Compilers before 1.87 know no lint of the next name.
#![allow(unknown_lints, clippy::elidable_lifetime_names)]
// Only build.rs sets the names of what an old compiler lacks.
#![allow(unexpected_cfgs)]

// The proved source names the standard library and the lower of its two crates.
#[cfg(not(feature = "std"))]
extern crate core as std;
extern crate self as rapidhash_portable;

#[macro_use]
mod macros;

#[cfg(feature = "std")]
mod collections;
pub mod fast;
mod held;
pub mod inner;
#[cfg(feature = "std")]
mod io;
pub mod key;
mod proved;
pub mod quality;
mod random;
mod shown;
mod stream;

#[cfg(feature = "std")]
pub use collections::{HashMapExt, HashSetExt, RapidHashMap, RapidHashSet};
#[cfg(feature = "std")]
use proved::known_length;
#[cfg(feature = "std")]
#[doc(hidden)]
pub use proved::reader;
#[doc(hidden)]
pub use proved::util;
use proved::{crc, in_memory, kernel, lanes, secrets, seeding, tail, words};
pub use proved::{fingerprints, rng, shards, v1, v2, v3};
#[cfg(any(feature = "std", target_has_atomic = "32"))]
pub use random::{WordsInUse, set_random_words};
