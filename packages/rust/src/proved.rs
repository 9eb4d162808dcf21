//! The proved sources without their contracts: `scripts/rust_crate` writes every file in `proved/`.

pub mod crc;
pub mod fingerprints;
pub mod in_memory;
pub mod inner {
    pub mod hasher;
    pub mod sponge;
    pub mod state {
        pub mod seeded;
    }
}
pub mod kernel;
pub mod key;
#[cfg(feature = "std")]
pub mod known_length;
pub mod lanes;
#[cfg(feature = "std")]
pub mod reader;
pub mod rng;
pub mod secrets;
pub mod seeding;
pub mod shards;
pub mod tail;
pub mod util;
pub mod v1;
pub mod v2;
pub mod v3;
pub mod words;
