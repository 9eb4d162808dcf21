//! Replays the files of cases: compares the crate with values from other sources. The README.md beside the files states
//! these sources, and the rules by which a line names messages and secrets. The replay is generated from that of the
//! proved crates.

pub mod kit;
pub mod messages;
#[allow(dead_code, unused_imports, clippy::all)]
pub mod proved;

use kit::{Context, Result, bail};
use std::fs;
use std::path::Path;

/// Replays a file. Returns the number of its cases. The error names a line that cannot be read or that differs.
fn file(path: &Path) -> Result<usize> {
    let text = fs::read_to_string(path)?;
    let mut lines = text.lines().filter(|line| !line.starts_with('#'));
    if lines.next() != Some(proved::cases::COLUMNS) {
        bail!("it has other columns");
    }
    let mut cases = 0;
    for line in lines {
        if !proved::cases::replay(line).context(line)? {
            bail!("it differs: {line}");
        }
        cases += 1;
    }
    Ok(cases)
}

/// Replays all files in a directory. Returns the number of files. The number of cases in each must be that of the
/// stored run of `test_replay`, so that a truncated file is noticed.
pub fn folder(folder: &Path) -> Result<usize> {
    let stored = fs::read_to_string(folder.join("../stdout"))?;
    let mut files = 0;
    for entry in fs::read_dir(folder)? {
        let path = entry?.path();
        let name = path.file_name().unwrap_or_default().to_string_lossy();
        if !name.ends_with(".tsv") {
            continue;
        }
        let cases = file(&path).context(&name)?;
        let line = format!("{name}: {cases} of {cases} cases");
        if !stored.lines().any(|stored| stored == line) {
            bail!("the stored run has no line {line}");
        }
        files += 1;
    }
    Ok(files)
}
