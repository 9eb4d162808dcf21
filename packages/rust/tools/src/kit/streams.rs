//! What Rust's `std` does not tell of the standard streams. Its runtime opens /dev/null for those that were closed when
//! the program started, and hides the errors of those that were not opened for their direction: reads would find
//! nothing and writes would be lost. It knows terminals only from Rust 1.70 on.
#![allow(unsafe_code)]

use std::sync::atomic::{AtomicUsize, Ordering};

const F_GETFL: i32 = 3;
/// The bits of the direction, with Linux's O_PATH, and their value for a stream that is read, written, or both.
const O_ACCMODE: i32 = if cfg!(all(target_os = "linux", not(target_arch = "sparc64"))) {
    0o10000003
} else {
    3
};
const O_RDONLY: i32 = 0;
const O_WRONLY: i32 = 1;
const O_RDWR: i32 = 2;

static UNUSABLE: AtomicUsize = AtomicUsize::new(0);

extern "C" {
    fn fcntl(descriptor: i32, command: i32, ...) -> i32;
    fn isatty(descriptor: i32) -> i32;
}

/// Runs before Rust's runtime, and records whether standard input can be read and standard output written.
#[used]
#[cfg_attr(target_vendor = "apple", link_section = "__DATA,__mod_init_func")]
#[cfg_attr(not(target_vendor = "apple"), link_section = ".init_array")]
static BEFORE_MAIN: extern "C" fn() = look;

extern "C" fn look() {
    for (stream, own) in [(0, O_RDONLY), (1, O_WRONLY)] {
        // SAFETY: this command has no further argument, and changes nothing. It returns -1 of a closed stream.
        let flags = unsafe { fcntl(stream, F_GETFL) };
        if ![own, O_RDWR].contains(&(flags & O_ACCMODE)) {
            UNUSABLE.fetch_or(1 << stream, Ordering::Relaxed);
        }
    }
}

/// Makes each use of such a stream fail, and tells the programs which are terminals.
pub fn tell() {
    // SAFETY: this accepts each number, and changes nothing.
    let is_terminal = |stream: &i32| unsafe { isatty(*stream) } == 1;
    let terminals = [1, 2].iter().filter(|stream| is_terminal(stream));
    rapidhash_tool::kit::set_streams(
        UNUSABLE.load(Ordering::Relaxed),
        terminals.map(|stream| 1 << stream).sum(),
    );
}
