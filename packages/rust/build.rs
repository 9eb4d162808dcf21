//! Tells the sources what an old compiler lacks: `rapidhash_old_const` before 1.83, `rapidhash_no_diagnostic` before
//! 1.78, `rapidhash_no_once_lock` before 1.70. A build without this script is one for a compiler that lacks nothing.

use std::env;
use std::process::Command;

const MISSING: [(&str, u32); 3] =
    [("rapidhash_old_const", 83), ("rapidhash_no_diagnostic", 78), ("rapidhash_no_once_lock", 70)];

/// Returns the minor version of the compiler that cargo runs.
fn minor() -> Option<u32> {
    let output = Command::new(env::var_os("RUSTC")?).arg("--version").output().ok()?;
    let version = String::from_utf8(output.stdout).ok()?;
    version.split('.').nth(1)?.parse().ok()
}

fn main() {
    println!("cargo:rerun-if-changed=build.rs");
    let minor = minor().unwrap_or(u32::MAX);
    for (name, least) in MISSING {
        if minor >= 80 {
            println!("cargo:rustc-check-cfg=cfg({name})");
        }
        if minor < least {
            println!("cargo:rustc-cfg={name}");
        }
    }
}
