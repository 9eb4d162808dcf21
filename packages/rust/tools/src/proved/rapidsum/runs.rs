// Made by scripts/rust_crate from crates/rapidsum/src/runs.rt: change that file.

//! A call of the program: it prints or checks files.

use rapidhash_tool::kit::HostRuntime;
use rapidhash_tool::kit::Vec;
use crate::check::{Verdict, check_entries};
use crate::console::Console;
use crate::disk::Disk;
use crate::list::{List, read_list};
use crate::options::{CHECK, FILES_FROM, IGNORE_MISSING, STRICT};
use crate::parse::Call;
use crate::problem::Problem;
use crate::sources::names_in;
use crate::store::Store;
use crate::sum::write_sum;
use rapidhash_tool::kit::alloc::Global;
use std::io;
use std::io::Read;

/// A list has a well-formed line in this many bytes, or is a text with lines there.
const HEAD: u64 = 65536;

/// Prints or checks the files of a call, or standard input if it names none. Returns whether all
/// files could be read and all checks passed.
pub fn run_files(rt: &HostRuntime, call: &Call<'_, Global>) -> Result<bool, Problem> {
    let mut console = Console::new(rt, call.options);
    let passed = run_call(&mut console, &Disk::new(rt), call);
    console.flush()?;
    match console.untold.take() {
        Some(problem) => passed.and(Err(problem)),
        None => passed,
    }
}

// Does the same, but may leave lines that are not written yet.
fn run_call(
    console: &mut Console<'_>,
    disk: &Disk<'_>,
    call: &Call<'_, Global>,
) -> Result<bool, Problem> {
    if let Some(list) = call.options.value(FILES_FROM) {
        return run_listed(console, disk, list);
    }
    if call.files.is_empty() {
        return run_file(console, disk, b"-");
    }
    let mut passed = true;
    for name in &call.files {
        passed = run_file(console, disk, name)? && passed;
    }
    Ok(passed)
}

// Prints or checks the files whose names are in a list.
fn run_listed(console: &mut Console<'_>, disk: &Disk<'_>, list: &[u8]) -> Result<bool, Problem> {
    let text = if let Some(text) = text_of(console, disk, list)? {
        text
    } else {
        return Ok(false);
    };
    let names = names_in(console.rt.alloc(), text.as_slice())?;
    let (mut passed, mut number) = (true, 0u64);
    for name in &names {
        number = number.saturating_add(1);
        let is_right = console.accepts(list, number, name)? && run_file(console, disk, name)?;
        passed = is_right && passed;
    }
    Ok(passed)
}

// Prints or checks a file.
fn run_file(console: &mut Console<'_>, disk: &Disk<'_>, name: &[u8]) -> Result<bool, Problem> {
    if console.options.has(CHECK) {
        check_list(console, disk, name)
    } else {
        print_sum(console, disk, name)
    }
}

// Prints the line of a file, or reports why it cannot be read.
fn print_sum(console: &mut Console<'_>, disk: &Disk<'_>, name: &[u8]) -> Result<bool, Problem> {
    let (rt, options) = (console.rt, console.options);
    let (algorithm, style, line) = (options.algorithm(), options.style(), &mut console.line);
    match write_sum(rt.alloc(), disk, name, algorithm, style, line) {
        Ok(()) => {
            console.end_line()?;
            Ok(true)
        }
        Err(Problem::Read(error)) => {
            console.complain_of(name, error)?;
            Ok(false)
        }
        Err(problem) => Err(problem),
    }
}

// Returns the whole text of a list of names.
fn read_whole(alloc: Global, disk: &Disk<'_>, name: &[u8]) -> io::Result<Vec<u8>> {
    let mut text = Vec::new(alloc);
    rapidhash_tool::kit::read_to_end(&mut disk.open(name)?, &mut text)?;
    Ok(text)
}

// Returns the whole text of a list of names, or reports why it cannot be read.
fn text_of(
    console: &mut Console<'_>,
    disk: &Disk<'_>,
    name: &[u8],
) -> Result<Option<Vec<u8>>, Problem> {
    match read_whole(console.rt.alloc(), disk, name) {
        Ok(text) => Ok(Some(text)),
        Err(error) => {
            console.complain_of(name, error)?;
            Ok(None)
        }
    }
}

// Reads a list. Of a file that ends in its first bytes, or whose first bytes have no well-formed
// line and are no lines of a text, it reads no others.
fn read_from(alloc: Global, disk: &Disk<'_>, name: &[u8]) -> Result<List, Problem> {
    let mut reader = disk.open(name).map_err(Problem::Read)?;
    let mut text = Vec::new(alloc);
    let mut head = (&mut reader).take(HEAD);
    rapidhash_tool::kit::read_to_end(&mut head, &mut text).map_err(Problem::Read)?;
    let list = read_list(alloc, text.as_slice())?;
    let has_lines = text.contains(&b'\n') && !text.contains(&0);
    let is_whole = (text.len() as u64) < HEAD;
    if is_whole || list.entries.is_empty() && !has_lines {
        return Ok(list);
    }
    rapidhash_tool::kit::read_to_end(&mut reader, &mut text).map_err(Problem::Read)?;
    read_list(alloc, text.as_slice())
}

// Returns the list with this name, or reports why it cannot be read.
fn list_named(
    console: &mut Console<'_>,
    disk: &Disk<'_>,
    name: &[u8],
) -> Result<Option<List>, Problem> {
    match read_from(console.rt.alloc(), disk, name) {
        Ok(list) => Ok(Some(list)),
        Err(Problem::Read(error)) => {
            console.complain_of(name, error)?;
            Ok(None)
        }
        Err(problem) => Err(problem),
    }
}

// Checks the files of the list with this name.
fn check_list(console: &mut Console<'_>, disk: &Disk<'_>, name: &[u8]) -> Result<bool, Problem> {
    let (rt, given) = (console.rt, console.options.algorithm());
    let list = if let Some(list) = list_named(console, disk, name)? {
        list
    } else {
        return Ok(false);
    };
    console.warn_of_lines(name, &list)?;
    if list.entries.is_empty() {
        console.complain(name, "no properly formatted checksum lines found")?;
        return Ok(false);
    }
    let ignore_missing = console.options.has(IGNORE_MISSING);
    let entries = list.entries.as_slice();
    let checked = check_entries(rt.alloc(), entries, disk, given, ignore_missing, console)?;
    let same = checked.count(Verdict::Same);
    console.warn_of_verdicts(name, &list, &checked)?;
    // A list that was cut off before a name must not pass as one with a missing file.
    let is_cut = list.has_no_name();
    if is_cut {
        console.complain(name, "a line has a hash, but no file name")?;
    }
    let well_formed = list.malformed.is_empty() || !console.options.has(STRICT);
    Ok(checked.passed && same > 0 && well_formed && !is_cut)
}
