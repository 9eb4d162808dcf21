// Made by scripts/rust_crate from crates/rapidhash_tool/src/lib.rt: change that file.

//! The command line of rapidhash, without the calls to the operating system: the plan that the
//! arguments select, how bytes are read and hashed, how the number is written, and the errors.
//!
//! [`plan`] returns the plan, and [`run_help`], [`run_stdin`] and [`run_file`] carry it out: the
//! last two print the decimal hash of all bytes of a reader, and a newline. Every run ends with
//! that line or with one [`CliFault`].
#![forbid(unsafe_code)]

extern crate self as rapidhash_tool;

mod command_line;
mod faults;
pub mod form;
mod hashes;
#[path = "../kit/mod.rs"]
pub mod kit;
mod lines;
mod usage;
mod version;

pub use command_line::plan;
pub use faults::CliFault;
pub use lines::{run_file, run_help, run_stdin};
pub use usage::help;
pub use version::{Minor, Plan, RapidhashVersion};
