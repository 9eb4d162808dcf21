//! The parts of the kit's library that Rust's `std` lacks: the system as a value, and allocations that report a
//! failure. `hex` and `itoa` have the functions of these crates that the programs call.

pub mod alloc;
pub mod env;
pub mod hex;

pub use alloc::Vec;

use alloc::{AllocError, AllocFailed, Global};
use std::fmt;
use std::io::{self, ErrorKind, Read, Write};
use std::path::Path;
use std::sync::atomic::{AtomicUsize, Ordering};

/// The options of the hashes, as the library names them.
pub mod kernel {
    /// For `AVALANCHE`: the last product is mixed once more.
    pub const MIXED: bool = true;
    /// For `COMPACT`: rows are folded two at a time.
    pub const NOT_COMPACT: bool = false;
    /// For `PROTECTED`: no product is mixed with its factors.
    pub const PLAIN: bool = false;
    /// For `PROTECTED`: each product is mixed with its factors.
    pub const GUARDED: bool = true;
}

/// The decimal digits of a number.
pub mod itoa {
    /// Writes the digits so that they end before `end`, and returns where they start.
    pub fn write_digits(number: u64, line: &mut [u8], end: usize) -> usize {
        let (mut rest, mut start) = (number, end);
        loop {
            start -= 1;
            line[start] = b'0' + (rest % 10) as u8;
            rest /= 10;
            if rest == 0 {
                return start;
            }
        }
    }
}

/// The system: its arguments, its standard streams, and its memory.
pub struct HostRuntime {
    arguments: std::vec::Vec<std::vec::Vec<u8>>,
}

impl HostRuntime {
    /// Returns the system of this process.
    #[allow(clippy::new_without_default)]
    pub fn new() -> Self {
        let arguments = std::env::args_os().map(env::bytes_of).collect();
        HostRuntime { arguments }
    }

    /// Returns the allocator.
    pub fn alloc(&self) -> Global {
        Global
    }

    /// Returns standard input.
    pub fn stdin(&self) -> Stdin {
        Stdin(io::stdin())
    }

    /// Returns standard output, without a buffer.
    pub fn stdout(&self) -> Stdout {
        Stdout
    }

    /// Returns standard error.
    pub fn stderr(&self) -> Stderr {
        Stderr
    }

    /// Writes a text to standard error.
    pub fn eprint(&self, text: fmt::Arguments<'_>) -> io::Result<()> {
        io::stderr().write_fmt(text)
    }

    /// Writes a text and a newline to standard error.
    pub fn eprintln(&self, text: fmt::Arguments<'_>) -> io::Result<()> {
        self.eprint(format_args!("{text}\n"))
    }
}

/// The standard streams that were closed when the program started, or opened for the other direction, as bits.
static UNUSABLE: AtomicUsize = AtomicUsize::new(0);
/// The standard streams that are terminals, as bits.
static TERMINALS: AtomicUsize = AtomicUsize::new(0);
/// The error of a descriptor that is not open, or not in this direction.
const EBADF: i32 = 9;

/// Sets which standard streams cannot be used, and which are terminals: bit 0 for the input, bit 1 for the output, and
/// bit 2 for errors.
pub fn set_streams(unusable: usize, terminals: usize) {
    UNUSABLE.store(unusable, Ordering::Relaxed);
    TERMINALS.store(terminals, Ordering::Relaxed);
}

/// Returns whether a standard stream is one of these.
fn is_among(streams: &AtomicUsize, stream: usize) -> bool {
    (streams.load(Ordering::Relaxed) >> stream) & 1 == 1
}

/// Fails if a standard stream cannot be used.
fn check_usable(stream: usize) -> io::Result<()> {
    if is_among(&UNUSABLE, stream) {
        return Err(io::Error::from_raw_os_error(EBADF));
    }
    Ok(())
}

/// Standard input.
pub struct Stdin(io::Stdin);

impl Read for Stdin {
    fn read(&mut self, buf: &mut [u8]) -> io::Result<usize> {
        check_usable(0)?;
        self.0.read(buf)
    }
}

/// Standard output. Each write reaches the system at once, so that its failure is reported.
pub struct Stdout;

impl Stdout {
    /// Returns whether it is a terminal.
    pub fn is_terminal(&self) -> bool {
        is_among(&TERMINALS, 1)
    }
}

impl Write for Stdout {
    fn write(&mut self, buf: &[u8]) -> io::Result<usize> {
        check_usable(1)?;
        let mut out = io::stdout().lock();
        #[cfg(unix)]
        if buf.contains(&b'\n') && !buf.ends_with(b"\n") {
            // It would write what follows the last newline on its own.
            let own = std::os::unix::io::AsFd::as_fd(&out).try_clone_to_owned()?;
            return std::fs::File::from(own).write(buf);
        }
        let count = out.write(buf)?;
        out.flush().map(|()| count)
    }

    fn flush(&mut self) -> io::Result<()> {
        io::stdout().flush()
    }
}

/// Standard error.
pub struct Stderr;

impl Stderr {
    /// Returns whether it is a terminal.
    pub fn is_terminal(&self) -> bool {
        is_among(&TERMINALS, 2)
    }
}

impl Write for Stderr {
    fn write(&mut self, buf: &[u8]) -> io::Result<usize> {
        io::stderr().write(buf)
    }

    fn flush(&mut self) -> io::Result<()> {
        io::stderr().flush()
    }
}

/// Returns the path of a name.
///
/// # Errors
///
/// If the name is not UTF-8, but not on Unix.
#[cfg(unix)]
pub fn path_of(name: &[u8]) -> io::Result<&Path> {
    Ok(Path::new(
        <std::ffi::OsStr as std::os::unix::ffi::OsStrExt>::from_bytes(name),
    ))
}

/// As above.
#[cfg(not(unix))]
pub fn path_of(name: &[u8]) -> io::Result<&Path> {
    let refused = |_| io::Error::new(ErrorKind::InvalidInput, "the name is not UTF-8");
    std::str::from_utf8(name).map(Path::new).map_err(refused)
}

/// Adds all that a reader has left to a vector.
pub fn read_to_end<R: Read, A>(reader: &mut R, whole: &mut Vec<u8, A>) -> io::Result<()> {
    let mut piece = [0; 65536];
    loop {
        match reader.read(&mut piece) {
            Ok(0) => return Ok(()),
            Ok(count) => whole.extend_from_slice(&piece[..count])?,
            Err(error) if error.kind() == ErrorKind::Interrupted => {}
            Err(error) => return Err(error),
        }
    }
}

/// Returns a text as a string.
pub fn format(_alloc: Global, text: fmt::Arguments<'_>) -> Result<String, AllocFailed<String>> {
    let mut whole = Fallible(String::new());
    fmt::write(&mut whole, text).map_err(|_| AllocFailed::new())?;
    Ok(whole.0)
}

// A string whose writes fail if an allocation does.
struct Fallible(String);

impl fmt::Write for Fallible {
    fn write_str(&mut self, text: &str) -> fmt::Result {
        self.0.try_reserve(text.len()).map_err(|_| fmt::Error)?;
        self.0.push_str(text);
        Ok(())
    }
}

/// Returns the first bytes of a text and the others, unless there are too few.
pub fn split_at_checked(text: &[u8], count: usize) -> Option<(&[u8], &[u8])> {
    (count <= text.len()).then(|| text.split_at(count))
}

impl From<AllocError> for io::Error {
    fn from(_error: AllocError) -> Self {
        ErrorKind::OutOfMemory.into()
    }
}
