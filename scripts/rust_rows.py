"""The rows of scripts/rust_crate: where the Rust crate differs from the proved source, and why."""

# The replacements for Rust: files, text, Rust's text, reason. A file of the programs has its place in packages/rust/.
REPLACED = [
    ("seeding v3/stream v3/stream/c_stream v3/stream/folded v3/stream/parts v3/stream/state", "#[derive(Drop)]",
     "#[derive(Clone)]", "`Debug` shows neither secrets nor messages: src/shown.rs"),
    ("*", "#[derive(Drop)]", "#[derive(Clone, Debug)]", "Rust lets each value go, and users expect these two"),
    ("seeding secrets secrets/v1", "#[derive(Debug, ", "#[derive(", "as above"),
    ("v3/stream/parts", "use crate::secrets::RapidSecrets;\n", "", "a stream owns its secrets: src/held.rs"),
    ("v3/stream/parts", "use crate::kernel::NOT_COMPACT;",
     "use crate::held::Owned;\nuse crate::kernel::NOT_COMPACT;", "as above"),
    ("v3/stream/parts", "secrets: &'a RapidSecrets", "secrets: Owned<'a>", "as above"),
    ("v3/stream v3/stream/c_stream v3/stream/saved", "secrets: &'a RapidSecrets", "secrets: &RapidSecrets", "as above"),
    ("v3/stream", "    secrets,\n                    folded",
     "    secrets: crate::held::Owned::new(secrets),\n                    folded", "as above"),
    ("v3/stream/c_stream", "    secrets,\n                folded",
     "    secrets: crate::held::Owned::new(secrets),\n                folded", "as above"),
    ("v3/stream/saved", "    secrets,\n            folded",
     "    secrets: crate::held::Owned::new(secrets),\n            folded", "as above"),
    ("key", "//! encodings ([`same_keys`](crate::laws::same_keys)): `", "//! encodings: `", "the laws are contracts"),
    ("key", "#[derive(Clone, Copy)]",
     "#[non_exhaustive]\n#[derive(Debug, Clone, Copy, PartialEq, Eq, Hash)]", "users expect these"),
    ("seeding", "    counter: u64,\n    random: u64,", "    pub(crate) counter: u64,\n    pub(crate) random: u64,",
     "a thread keeps the words of its source apart"),
    ("rng", "from_moment(secs: u64, nanos: u32)", "from_moment(time: Duration)", "a duration is always valid"),
    ("rng", "(&mut seed, secs, nanos)", "(&mut seed, time.as_secs(), time.subsec_nanos())", "as above"),
    ("rng", "    /// seed.\n    ///\n    /// # Panics\n    ///\n    /// In Rust, if the nanoseconds are a second "
     "or more. Rattle's checker refuses such a call.\n", "    /// seed.\n", "as above"),
    ("rng", "use std::marker::Model;", "use std::marker::Model;\nuse std::time::Duration;", "as above"),
    ("tests/portable/proved/stream", "/// A stream hasher is a reference, seven",
     "/// A stream hasher is a seed, seven secrets, seven", "as above"),
    ("tests/portable/proved/stream", ": its count of chunk steps needs no memory.", ".", "as above"),
    ("tests/portable/proved/stream", "let size = 8 + 56", "let size = 64 + 56", "as above"),
    ("inner/hasher inner/state/seeded", "secrets: &'s [u64; 7],\n", "secrets: Secrets<'s>,\n",
     "without std, words that a program sets have no place to lend them from"),
    ("inner/hasher", "secrets: &'s [u64; 7])", "secrets: Secrets<'s>)", "as above"),
    ("inner/hasher", "&DEFAULT_RAPID_SECRETS.secrets,", "Secrets::new(&DEFAULT_RAPID_SECRETS.secrets),", "as above"),
    ("inner/hasher", "self.seed, self.secrets)", "self.seed, &self.secrets)", "as above"),
    ("inner/hasher inner/state/seeded", "use crate::inner::",
     "use crate::held::Secrets;\nuse crate::inner::", "as above"),
    ("v3/stream", "/// ```\n#[derive", """/// ```
///
/// It owns a copy of its secrets, so `'a` may be `'static`. The lifetime is there because the crate
/// `rapidhash` has it:
///
/// ```
/// use rapidhash::v3::{RapidSecrets, RapidStreamHasherV3};
///
/// struct Upload {
///     hash: RapidStreamHasherV3<'static>,
/// }
///
/// let upload = Upload { hash: RapidStreamHasherV3::new(&RapidSecrets::random()) };
/// const EMPTY: RapidStreamHasherV3<'static> = RapidStreamHasherV3::DEFAULT;
/// ```
#[derive""", "as above"),
    ("v3/readers",
     """    // No array is larger than `isize::MAX`: the `else` is dead, and spares callers a precondition.
    if SIZE <= isize::MAX as usize {
        read_all::<R, LANES, SIZE, PROTECTED>(source, hasher)
    } else {
        read_all::<R, LANES, BUFFER, PROTECTED>(source, hasher)
    }
""", "    read_all::<R, LANES, SIZE, PROTECTED>(source, hasher)\n", "the other arm is for the proof"),
    ("v3/stream/state",
     "//! The data of a stream hasher, and their invariant. The checker accepts no ghost field beside code\n"
     "//! that lends an array, so each method here is one line, and all code is in `parts`.",
     "//! The data of a stream hasher, with the number of its lanes.", "Rust has no invariants"),
    ("v3/stream/parts", " The invariant of the data is stated one level up,\n//! in `state`, and is a precondition of "
     "each function here.", "", "as above"),
    ("v3/stream", " The public one has the options, `state` the invariants, `parts` the\n//! data and all the code; "
     "`folded` keeps the lanes and counts the chunks.", " The public one has the options, `state` the number of\n"
     "//! lanes, `parts` the data and all the code; `folded` keeps the lanes.", "as above"),
    ("v3/stream/folded", ", and how many chunks they have folded.\n//!\n//! No other code can fold a chunk without "
     "counting it, or count one without folding it: both are\n//! private here, and only `step`, `step_twice` and "
     "`clear` change them. `with_lanes` starts from\n//! lanes that were saved, with a count of 0. The count needs no "
     "memory and no time; only contracts\n//! see it.", ".", "no count"),
    ("v3/stream/folded", ", and how many chunks were folded into\n/// them.", ".", "as above"),
    ("v3/stream/folded", "    count: Count,\n", "", "as above"),
    ("v3/stream/folded", "            count: Count::new(),\n", "", "as above"),
    ("v3/stream/folded", "        self.count = Count::after(&self.count);\n", "", "as above"),
    ("v3/stream/folded", "        self.count = Count::after(&Count::after(&self.count));\n", "", "as above"),
    ("v1 v2 v3", "mod readers;", '#[cfg(feature = "std")]\nmod readers;', "core has no readers"),
    ("v1 v2 v3", "pub use readers::", '#[cfg(feature = "std")]\npub use readers::', "core has no readers"),
    ("v1/readers v2/readers", "use std::io::{ErrorKind, Read};", "use std::io::Read;", "contracts alone name the kind"),
    ("kernel", "It is public because the C library calls it, and the language\n//! has no visibility for just one "
     "other crate; `rapidhash` does not re-export it.", "It is private.", "the Rust crate is one"),
    ("in_memory", " It is public because the crate `rapidhash` needs it, and\n//! the language has no visibility for "
     "just one other crate; `rapidhash` does not re-export it.", " It is private.", "as above"),
    ("kernel", "pub const GUARDED", "#[allow(dead_code)]\npub const GUARDED", "only the C library and the tool use it"),
    ("secrets secrets/v1", "pub const fn seed_of_word", "pub(crate) const fn seed_of_word", "the Rust crate is one"),
    ("secrets/v1", "[`rapidhash_v1`]", "[`rapidhash_v1`](crate::v1::rapidhash_v1)", "rustdoc looks for each link"),
    ("inner/hasher/integers", ".cast_unsigned()", ".to_unsigned()", "cast_unsigned came with Rust 1.87"),
    ("inner/hasher/integers", "use super::RapidHasher;", "use super::RapidHasher;\nuse crate::macros::ToUnsigned;",
     "as above"),
    ("inner/hasher", "In Rust the trait's\n/// integer writes are these methods. In Rattle they are the trait's "
     "provided ones, which pass the\n/// bytes of an integer to `write`.",
     "The trait's integer writes are the\n/// same.", "Rust has no other writes"),
    ("inner/hasher", "const COMPACT: bool,\n    const PROTECTED: bool,\n> {\n    seed",
     "const COMPACT: bool = false,\n    const PROTECTED: bool = false,\n> {\n    seed",
     "Rattle has no default parameters, and programs over the crate leave these two out"),
    ("inner/hasher", "> Hasher for RapidHasher<'s, AVALANCHE, SPONGE, COMPACT, PROTECTED> {\n",
     "> Hasher for RapidHasher<'s, AVALANCHE, SPONGE, COMPACT, PROTECTED> {\n    forward_integers!();\n\n",
     "Rattle's law on Hasher maps the integer writes to `write`; Rust has none"),
    ("tests/replay/proved/mod", "pub mod draws;", "pub mod draws;\npub mod form;", "another crate's in Rattle"),
    *[("tests/replay/proved/draws", f"""            let made = {version}::RapidSecrets::seed_cpp(number);
            if {version}::RapidSecrets::seed_of_word(number) != made.seed {{
                bail!("two seeds");
            }}
            made
""", f"            {version}::RapidSecrets::seed_cpp(number)\n", "it is private") for version in ("v1", "v3")],
    ("tests/replay/proved/items", "fn answered<", "pub fn answered<", "a test makes the call"),
    ("tests/replay/proved/items", "Item::Usize(value.parse::<usize>()?)",
     "value.parse().map_or(Item::U64(value.parse()?), Item::Usize)", "32 bits hold some of the values"),
    ("tests/replay/proved/items", "Item::Isize(value.parse::<isize>()?)",
     "value.parse().ok().filter(|it: &isize| isize::BITS == 64 || *it >= 0).map_or(Item::I64(value.parse()?), "
     "Item::Isize)", "as above, and a negative one of 32 bits has another hash"),
    ("tools/src/proved/lib", "mod command_line;",
     "extern crate self as rapidhash_tool;\n\nmod command_line;", "one name for both"),
    ("tools/src/proved/rapidsum/disk", """let path = if let Ok(path) = str::from_utf8(name) { path } else {
            return Err(Error::new(ErrorKind::InvalidInput, "the name is not UTF-8"));
        };
        let input = if path == "-" {""", """let path = rapidhash_tool::kit::path_of(name)?;
        let input = if name == b"-" {""", "Rattle's paths are UTF-8"),
    ("tools/src/proved/rapidsum/disk",
     "use std::io::{Error, ErrorKind, IsTerminal, Read, Result, Stdin, Write};\nuse std::str;",
     "use rapidhash_tool::kit::Stdin;\nuse std::io::{Read, Result, Write};",
     "as above, IsTerminal came with Rust 1.70, and Rust's runtime opens a closed input"),
    ("tools/src/proved/rapidsum/algorithm tools/src/proved/rapidsum/tag", " seed.\n\n",
     " seed.\n#![allow(clippy::manual_find)]\n\n", "the proof is of a loop"),
    ("tools/src/proved/rapidsum/main tools/src/proved/rapidhash", "#![forbid(unsafe_code)]", "#![deny(unsafe_code)]",
     "Rust's runtime ignores the signal, and opens closed streams"),
    ("tools/src/proved/rapidsum/main", "mod usage;\n",
     "mod usage;\n\n#[cfg(unix)]\n#[path = \"../../kit/pipe.rs\"]\nmod pipe;\n"
     "#[cfg(unix)]\n#[path = \"../../kit/streams.rs\"]\nmod streams;\n", "as above"),
    ("tools/src/proved/rapidsum/main", "    let rt = HostRuntime::new();\n",
     "    #[cfg(unix)]\n    pipe::restore();\n    #[cfg(unix)]\n    streams::tell();\n"
     "    let rt = HostRuntime::new();\n", "as above"),
    ("tools/src/proved/rapidhash", "    let rt = HostRuntime::new();\n",
     "    #[cfg(unix)]\n    streams::tell();\n    let rt = HostRuntime::new();\n", "as above"),
    ("tools/src/proved/rapidhash", "use std::process::ExitCode;\n",
     "use std::process::ExitCode;\n\n#[cfg(unix)]\n#[path = \"../kit/streams.rs\"]\nmod streams;\n", "as above"),
    ("tools/src/proved/rapidsum/main",
     "        Err(problem) if problem.is_broken_pipe() => ExitCode::from(BROKEN_PIPE),\n", "", "as above"),
    ("tools/src/proved/rapidsum/problem", "    /// Returns whether a line was written to a pipe",
     "    #[allow(dead_code)]\n    /// Returns whether a line was written to a pipe", "as above"),
    ("tools/src/proved/rapidsum/console", "use std::io::{IsTerminal, Write};", "use std::io::Write;",
     "IsTerminal came with Rust 1.70"),
    ("tools/src/proved/lib", "mod hashes;", "pub mod form;\nmod hashes;", "the Rust crate has no forms"),
    ("tools/src/proved/lib", "mod lines;", '#[path = "../kit/mod.rs"]\npub mod kit;\nmod lines;', "the kit's library"),
]

# Items that the Rust crate implements differently: the starts of those of each file.
LEFT_OUT = {
    # The signal ends the program.
    "tools/src/proved/rapidsum/main": ["const BROKEN_PIPE"],
    # It counts for the proof alone.
    "src/proved/v3/stream/folded": ["#[repr(C)]\n#[derive(Clone)]\nstruct Count", "impl Count"],
    # The crate has no dependency.
    "src/proved/rng": ["use rand_core", "impl SeedableRng", "impl NextWord", "impl Rng"],
    # random.rs draws the random words itself, so random takes none.
    "src/proved/secrets": ["use crate::seeding", "pub fn random"],
    "tests/portable/proved/secrets": ["#[test]\nfn random_secrets"],
    # A test makes the calls.
    "tests/replay/proved/mod": ["fn main", "fn replay", "const USAGE", "use std"],
    # Contracts state the counts.
    "tests/portable/proved/values": ["use crate::counts", "#[test]\nfn counted_hashers_hash"],
}
