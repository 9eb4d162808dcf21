//! The signal of a write to a pipe that its reader has closed. Rust's runtime ignores it. So a program would read all
//! of its files, and xargs would start it again and again.
#![allow(unsafe_code)]

use std::sync::atomic::{AtomicUsize, Ordering};

const SIGPIPE: i32 = 13;

static HANDLER: AtomicUsize = AtomicUsize::new(0);

extern "C" {
    fn signal(number: i32, handler: usize) -> usize;
}

/// Runs before Rust's runtime, and keeps how the program was started: with the signal at its default, or ignored.
#[used]
#[cfg_attr(target_vendor = "apple", link_section = "__DATA,__mod_init_func")]
#[cfg_attr(not(target_vendor = "apple"), link_section = ".init_array")]
static BEFORE_MAIN: extern "C" fn() = keep;

extern "C" fn keep() {
    // SAFETY: `signal` accepts each signal and handler. No other thread runs yet.
    HANDLER.store(unsafe { signal(SIGPIPE, 0) }, Ordering::Relaxed);
}

/// Handles the signal as the program was started.
pub fn restore() {
    // SAFETY: as above. The handler is the default or to ignore, because no handler survives the start of a program.
    unsafe { signal(SIGPIPE, HANDLER.load(Ordering::Relaxed)) };
}
