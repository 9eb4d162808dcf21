// Made by scripts/rust_crate from crates/rapidhash_tool/src/usage.rt: change that file.

//! The help text.

/// Returns the text of `--help`.
pub fn help() -> &'static str {
    "Usage: rapidhash <version> [opts] [filename]
<version>
  --v1    Use v1 hashing algorithm (no streaming)
  --v2.0  Use v2.0 hashing algorithm (no streaming)
  --v2.1  Use v2.1 hashing algorithm (no streaming)
  --v2.2  Use v2.2 hashing algorithm (no streaming)
  --v3    Use v3 hashing algorithm (default)
  --v3-micro  Use v3 micro hashing algorithm
  --v3-nano   Use v3 nano hashing algorithm
[opts]
  --protected  Use the protected variant (default: false)
[filename]
  Providing a filename is optional and will read a file directly. Otherwise input
  is read from stdin.

Note that only some rapidhash versions support streaming, others require
buffering the entire input in memory.

Docs: https://github.com/hoxxep/rapidhash?tab=readme-ov-file#cli
"
}
