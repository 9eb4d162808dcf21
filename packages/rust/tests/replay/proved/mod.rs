// Made by scripts/rust_crate from crates/test_replay/src/main.rt: change that file.

//! Replays files of cases, whose values come from elsewhere (see data/README.md), with the library.
//! It prints a line of counts for each file named in its arguments, the cases that differ on
//! standard error, and ends with status 1 if one does. Without arguments it prints how it is
//! called, and ends with status 2.

use crate::replay::kit::*;

pub mod bodies;
pub mod cases;
pub mod draws;
pub mod form;
pub mod items;
pub mod keys;
pub mod readers;
pub mod rules;
pub mod shards;
pub mod streams;
