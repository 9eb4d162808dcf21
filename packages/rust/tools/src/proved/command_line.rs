// Made by scripts/rust_crate from crates/rapidhash_tool/src/command_line.rt: change that file.

//! The plan that the arguments select.

use crate::version::{Plan, RapidhashVersion};
use rapidhash_tool::form::Version;

/// Returns the plan that the arguments select. The first of them is the program's name.
///
/// It is the help if there are no arguments or one of them is `--help` or `-h`. Otherwise those
/// after the name select the version, and the first of them that does not begin with a hyphen names
/// the file.
pub fn plan(args: &[String]) -> Plan {
    if args.is_empty() || has(args, "--help") || has(args, "-h") {
        return Plan::Help;
    }
    let others = &args[1..];
    match RapidhashVersion::new(others) {
        None => Plan::Refused,
        Some(version) => Plan::Run {
            version,
            file: first_plain(others).map(|place| place + 1),
        },
    }
}

// Returns whether a text is among the arguments.
pub(crate) fn has(args: &[String], arg: &str) -> bool {
    args.iter().any(|other| other.as_str() == arg)
}

fn is_name(arg: &str, version: Version) -> bool {
    matches!(arg.as_bytes(), [b'-', b'-', name @ ..] if name == version.name().as_bytes())
}

// Returns whether a version's name, after two hyphens, is among the arguments.
pub(crate) fn has_name(args: &[String], version: Version) -> bool {
    args.iter().any(|arg| is_name(arg.as_str(), version))
}

fn begins_with_hyphen(arg: &str) -> bool {
    matches!(arg.as_bytes(), [b'-', ..])
}

// Returns the place of the first argument that does not begin with a hyphen.
pub(crate) fn first_plain(args: &[String]) -> Option<usize> {
    args.iter()
        .position(|arg| !begins_with_hyphen(arg.as_str()))
}
