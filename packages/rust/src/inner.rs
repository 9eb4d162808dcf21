//! The hasher of maps, with every option, and the states that build it. Most programs use [`crate::fast`]
//! or [`crate::quality`].
//!
//! Its four options are const parameters, the same for the hasher and for the states:
//!
//! - `AVALANCHE` mixes each write of bytes and the hash once more.
//! - `SPONGE` collects integers and mixes 128 bits at once, instead of one multiply per integer.
//! - `COMPACT` processes rows one at a time instead of two: less code, the same values.
//! - With `PROTECTED`, a key cannot cancel earlier input by containing a secret.
//!
//! The values are those of version 4.5.1 of the crate `rapidhash`, which may change its own. For
//! hashes that are stored or sent, use the portable ones. On 32-bit machines, a `usize` is absorbed
//! as 64 bits, so the values are the same on every machine. The exceptions are slices, arrays, and
//! vectors of integers, which std passes as they are in memory: those of `usize` differ on 32-bit
//! machines, and those of integers wider than a byte on big-endian machines.

mod state;

pub(crate) use crate::proved::inner::{hasher, sponge};
#[doc(hidden)]
pub use crate::seeding::{GlobalSecrets, SeedSource};
pub use hasher::RapidHasher;
pub use state::{GlobalState, RandomState, SeedableState};
