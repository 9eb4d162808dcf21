//! Compares a subject with the Rust crate as formulas: `main KIND CRATE COMMAND..`, where the kind is `native` for a
//! package that has the C library's calls, `v3` for one that has V3 of whole messages alone, or `kernels` for one that
//! has every option.
//!
//! All control flow of a hash depends on the length alone, so the hash of n bytes is a formula over loads, products,
//! XOR, OR, and shifts. The crate and the subject are built with the same random functions as loads and product.
//! If two formulas differ, their values differ for random bytes, seeds, secrets, and functions, except with probability
//! 2^-64. Up to 16 bytes, formulas also shift and join bits, and each is compared 64 times.
//!
//! Both read the buffer that holds all messages, then records of 20 little-endian words until the input ends:
//! form (0: V1, 1 to 3: V2 by its minor number, 4 to 6: V3 with 7, 5 and 3 lanes), options (1 avalanche, 2 protected,
//! 4 the V1 bug, 8 compact), key of the random functions, seed, seven secrets, offset and length of the message in the
//! buffer, 1 for a stream, the four places where it is cut into five pieces, and two zeros. They write a little-endian
//! word per record.

use std::io::{BufReader, BufWriter, Read, Write};
use std::process::{Child, ChildStdin, ChildStdout, Command, Stdio, exit};

const ROOM: usize = 32768;
const AVALANCHE: u64 = 1;
const PROTECTED: u64 = 2;
const V1_BUG: u64 = 4;
const COMPACT: u64 = 8;

type Record = [u64; 20];

/// The words of a random generator, and the records that use them.
struct Plan {
    state: u64,
    records: Vec<Record>,
}

impl Plan {
    fn next(&mut self) -> u64 {
        self.state = self.state.wrapping_add(0x9e37_79b9_7f4a_7c15);
        let mut word = self.state;
        word = (word ^ word >> 30).wrapping_mul(0xbf58_476d_1ce4_e5b9);
        word = (word ^ word >> 27).wrapping_mul(0x94d0_49bb_1331_11eb);
        word ^ word >> 31
    }

    fn add(&mut self, form: u64, options: u64, length: usize, cuts: Option<[usize; 4]>) {
        let mut record: Record = std::array::from_fn(|_| self.next());
        let room = (ROOM - length + 1) as u64;
        (record[0], record[1]) = (form, options);
        (record[11], record[12], record[13]) = (record[11] % room, length as u64, cuts.is_some() as u64);
        record[14..18].copy_from_slice(&cuts.unwrap_or([0; 4]).map(|cut| cut as u64));
        (record[18], record[19]) = (0, 0);
        self.records.push(record);
    }

    fn slices(&mut self, form: u64, options: u64) {
        let is_long = options & COMPACT == 0 && (form == 4 || options == AVALANCHE);
        let most = if is_long { 16384 } else { 4096 };
        for length in 0..=most {
            for _ in 0..if length <= 16 { 64 } else { 1 } {
                self.add(form, options, length, None);
            }
        }
    }

    /// Every cut in two up to 300 bytes, then four random cuts of each length.
    fn streams(&mut self, form: u64, options: u64) {
        for length in 0..=300 {
            for cut in 0..=length {
                self.add(form, options, length, Some([cut; 4]));
            }
        }
        for length in 0..=4096 {
            let mut cuts: [usize; 4] = std::array::from_fn(|_| self.next() as usize % (length + 1));
            cuts.sort();
            self.add(form, options, length, Some(cuts));
        }
    }
}

/// Returns all records of a kind of subject.
fn plan(kind: &str) -> Vec<Record> {
    let mut plan = Plan { state: 0, records: vec![] };
    for form in 0..7 {
        for options in 0..16 {
            let native = options == AVALANCHE || form == 4 && options == AVALANCHE | PROTECTED;
            let has = (options & V1_BUG == 0 || form == 0) && (options & COMPACT == 0 || form < 5);
            let (in_slices, in_streams) = match kind {
                "v3" => (form == 4 && options == AVALANCHE, false),
                "native" => (native, options == AVALANCHE),
                _ => (has, has && options & COMPACT == 0),
            };
            if in_slices {
                plan.slices(form, options);
            }
            if form >= 4 && in_streams {
                plan.streams(form, options);
            }
        }
    }
    plan.records
}

/// Starts a program with pipes.
fn start(words: &[String]) -> (Child, ChildStdin, BufReader<ChildStdout>) {
    let started = Command::new(&words[0]).args(&words[1..]).stdin(Stdio::piped()).stdout(Stdio::piped()).spawn();
    let mut child = started.expect("the program does not start");
    let (input, output) = (child.stdin.take().unwrap(), child.stdout.take().unwrap());
    (child, input, BufReader::new(output))
}

/// Reads the next word of a program.
fn word(from: &mut impl Read) -> [u8; 8] {
    let mut word = [0; 8];
    if from.read_exact(&mut word).is_err() {
        println!("a program ended before its last answer");
        exit(1);
    }
    word
}

/// Writes the buffer and the records. A subject that ends early is found by its missing answers.
fn ask(records: &[Record], room: &[u8], out: impl Write) -> std::io::Result<()> {
    let mut out = BufWriter::new(out);
    out.write_all(room)?;
    for word in records.iter().flatten() {
        out.write_all(&word.to_le_bytes())?;
    }
    out.flush()
}

fn main() {
    let words: Vec<String> = std::env::args().skip(1).collect();
    let records = plan(&words[0]);
    let mut random = Plan { state: 1, records: vec![] };
    let room: Vec<u8> = (0..ROOM).map(|_| random.next() as u8).collect();
    let (mut reference, reference_input, mut wanted) = start(&words[1..2]);
    let (mut subject, input, mut found) = start(&words[2..]);
    let mut differ = 0;
    std::thread::scope(|scope| {
        scope.spawn(|| ask(&records, &room, reference_input));
        scope.spawn(|| ask(&records, &room, input));
        for record in &records {
            if word(&mut found) != word(&mut wanted) {
                differ += 1;
                if differ <= 5 {
                    let (form, options, length) = (record[0], record[1], record[12]);
                    println!("form {form} with options {options} differs at {length} bytes: {record:?}");
                }
            }
        }
    });
    let is_over = [reference.wait(), subject.wait()].iter().all(|it| matches!(it, Ok(it) if it.success()));
    println!("{} formulas compared, {differ} differ", records.len());
    exit((differ > 0 || !is_over) as i32);
}
