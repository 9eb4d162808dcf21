//! Tests the portable hashes: known values, streams, and readers that end early or fail.
// These tests are written in Rattle, whose style differs here.
#![allow(clippy::manual_range_contains, clippy::needless_range_loop)]

#[cfg(feature = "std")]
mod bulk;
mod proved {
    #[cfg(feature = "std")]
    pub mod fakes;
    #[cfg(feature = "std")]
    pub mod readers;
    mod secrets;
    mod stream;
    mod values;
}

#[cfg(feature = "std")]
use proved::{fakes, readers};
