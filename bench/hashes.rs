//! Hashes of messages and readers, and the first state of a thread, with a crate.

use super::rapidhash::{fast, v1, v2, v3};
use crate::{Row, Texts};
use std::hint::black_box;
use std::io::Read;
use std::time::Instant;

/// The hashes summed: the processor works on several at a time.
#[inline(never)]
fn summed(texts: &Texts, hash: impl Fn(&[u8]) -> u64) -> u64 {
    texts.slices.iter().fold(0, |sum, text| sum.wrapping_add(hash(text)))
}

/// Each message begins where the hash before it says: the time from bytes to hash.
#[inline(never)]
fn chained(texts: &Texts, hash: impl Fn(&[u8]) -> u64) -> u64 {
    texts.parts.iter().fold(0, |last, part| {
        let at = (last % 64) as usize;
        hash(&texts.bytes[at..at + part.len()])
    })
}

/// A call that the compiler does not inline.
#[inline(never)]
fn called(text: &[u8], hash: impl Fn(&[u8]) -> u64) -> u64 {
    hash(text)
}

/// Returns the rows of a form: three loops over each length and range.
fn form(name: &str, texts: &'static [Texts], hash: impl Fn(&[u8]) -> u64 + Copy + 'static) -> Vec<Row> {
    let row = |of: &'static Texts| {
        let works: [(&str, Box<dyn FnMut() -> u64>); 3] = [
            ("sum", Box::new(move || summed(of, hash))),
            ("chain", Box::new(move || chained(of, hash))),
            ("call", Box::new(move || summed(of, |text| called(text, hash)))),
        ];
        works.map(|(shape, work)| Row::new(name, &format!("{} {shape}", of.lengths), of.slices.len(), work))
    };
    texts.iter().flat_map(row).collect()
}

/// Returns the rows of the forms, whose hash is as programs call it: inlined into the loop, if the crate lets the
/// compiler inline it.
pub fn slices(texts: &'static [Texts]) -> Vec<Row> {
    let three: &'static _ = Box::leak(Box::new(black_box(v1::RapidSecrets::seed(7))));
    let seven: &'static _ = Box::leak(Box::new(black_box(v3::RapidSecrets::seed(7))));
    macro_rules! forms {
        ($($name:literal => |$text:ident| $hash:expr,)*) => {
            [$(form($name, texts, #[inline(always)] move |$text: &[u8]| $hash)),*]
        };
    }
    let forms = forms! {
        "v1" => |text| v1::rapidhash_v1(text),
        "v1 seeded" => |text| v1::rapidhash_v1_seeded(text, three),
        "v2.2" => |text| v2::rapidhash_v2_2(text),
        "v3" => |text| v3::rapidhash_v3(text),
        "v3 seeded" => |text| v3::rapidhash_v3_seeded(text, seven),
        "micro" => |text| v3::rapidhash_v3_micro_inline::<true, false>(text, &v3::DEFAULT_RAPID_SECRETS),
        "nano" => |text| v3::rapidhash_v3_nano_inline::<true, false>(text, &v3::DEFAULT_RAPID_SECRETS),
    };
    forms.into_iter().flatten().collect()
}

/// A reader that returns at most `most` bytes per read.
struct Pieces<'b> {
    rest: &'b [u8],
    most: usize,
}

impl Read for Pieces<'_> {
    fn read(&mut self, buffer: &mut [u8]) -> std::io::Result<usize> {
        let count = buffer.len().min(self.most);
        self.rest.read(&mut buffer[..count])
    }
}

pub fn readers() -> Vec<Row> {
    let row = |most| {
        let bytes = vec![42; 1 << 16];
        let name = format!("{most} bytes per read");
        Row::new("reader", &name, bytes.len() / most, move || {
            v3::rapidhash_v3_file(Pieces { rest: &bytes, most }).unwrap()
        })
    };
    [1, 4, 16, 100, 536, 4096].map(row).into()
}

/// The first state of each of many threads.
pub fn first_states() -> Vec<Row> {
    black_box(fast::RandomState::new());
    let first = || {
        let start = Instant::now();
        black_box(fast::RandomState::new());
        start.elapsed().as_nanos()
    };
    vec![Row::timed("thread", "first state", 1, move || std::thread::spawn(first).join().unwrap())]
}
