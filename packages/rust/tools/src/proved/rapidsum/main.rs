// Made by scripts/rust_crate from crates/rapidsum/src/main.rt: change that file.

//! Prints the hash of each file as a line and checks such lines, as sha256sum does with its own.
#![deny(unsafe_code)]

mod algorithm;
mod arguments;
mod check;
mod console;
mod disk;
mod entry;
mod line;
mod list;
mod names;
mod options;
mod parse;
mod parts;
mod problem;
mod quote;
mod reading;
mod runs;
mod seed;
mod sources;
mod store;
mod sum;
mod tag;
mod usage;

#[cfg(unix)]
#[path = "../../kit/pipe.rs"]
mod pipe;
#[cfg(unix)]
#[path = "../../kit/streams.rs"]
mod streams;

use rapidhash_tool::kit::HostRuntime;
use arguments::arguments_of;
use options::rows;
use parse::parse;
use problem::Problem;
use std::process::ExitCode;

// Carries out the request in the arguments. Returns whether all files could be read and all checks
// passed.
fn run(rt: &HostRuntime) -> Result<bool, Problem> {
    let words = arguments_of(rt, rt.alloc())?;
    match parse(rt.alloc(), rows(), words.as_slice())? {
        Ok(call) => runs::run_files(rt, &call),
        Err(stop) => usage::report(rt, stop),
    }
}

// Prints a problem. If standard error cannot be written, the status still reports it.
fn tell(rt: &HostRuntime, problem: &Problem) {
    if let Ok(text) = problem.text(rt.alloc()) {
        let _ = rt.eprintln(format_args!("rapidsum: {text}"));
    } else {
        let _ = rt.eprintln(format_args!("rapidsum: {problem}"));
    }
}

fn main() -> ExitCode {
    #[cfg(unix)]
    pipe::restore();
    #[cfg(unix)]
    streams::tell();
    let rt = HostRuntime::new();
    match run(&rt) {
        Ok(true) => ExitCode::SUCCESS,
        Ok(false) => ExitCode::FAILURE,
        Err(problem) => {
            tell(&rt, &problem);
            ExitCode::FAILURE
        }
    }
}
