//! Computes the hashes that tests/formulas/main.rs requests, by the Rust crate over random reads and a random product.

use rapidhash::{util, v1, v2, v3};
use std::io::{BufWriter, Read, Write, stdin, stdout};
use std::sync::atomic::Ordering::Relaxed;

type Record = [u64; 20];

fn in_pieces<const LANES: usize, const A: bool, const P: bool>(
    record: &Record,
    bytes: &[u8],
    secrets: &v3::RapidSecrets,
) -> u64 {
    let mut stream = v3::RapidStreamHasherLanes::<LANES, A, P>::new(secrets);
    let mut at = 0;
    for end in [record[14], record[15], record[16], record[17], bytes.len() as u64] {
        stream.write(&bytes[at..end as usize]);
        at = end as usize;
    }
    stream.finish()
}

fn hash<const A: bool, const P: bool, const C: bool>(record: &Record, bytes: &[u8]) -> u64 {
    let words: [u64; 7] = record[4..11].try_into().unwrap();
    let seven = &v3::RapidSecrets { seed: record[3], secrets: words };
    let three = &v1::RapidSecrets { seed: record[3], secrets: [words[0], words[1], words[2]] };
    let (has_bug, streamed) = (record[1] & 4 != 0, record[13] == 1);
    match (record[0], streamed) {
        (0, _) if has_bug => v1::rapidhash_v1_inline::<A, C, P, true>(bytes, three),
        (0, _) => v1::rapidhash_v1_inline::<A, C, P, false>(bytes, three),
        (1, _) => v2::rapidhash_v2_inline::<0, A, C, P>(bytes, seven),
        (2, _) => v2::rapidhash_v2_inline::<1, A, C, P>(bytes, seven),
        (3, _) => v2::rapidhash_v2_inline::<2, A, C, P>(bytes, seven),
        (4, false) => v3::rapidhash_v3_inline::<A, C, P>(bytes, seven),
        (5, false) => v3::rapidhash_v3_micro_inline::<A, P>(bytes, seven),
        (6, false) => v3::rapidhash_v3_nano_inline::<A, P>(bytes, seven),
        (4, true) => in_pieces::<7, A, P>(record, bytes, seven),
        (5, true) => in_pieces::<5, A, P>(record, bytes, seven),
        _ => in_pieces::<3, A, P>(record, bytes, seven),
    }
}

fn answer(record: &Record, bytes: &[u8]) -> u64 {
    match record[1] & 11 {
        0 => hash::<false, false, false>(record, bytes),
        1 => hash::<true, false, false>(record, bytes),
        2 => hash::<false, true, false>(record, bytes),
        3 => hash::<true, true, false>(record, bytes),
        8 => hash::<false, false, true>(record, bytes),
        9 => hash::<true, false, true>(record, bytes),
        10 => hash::<false, true, true>(record, bytes),
        _ => hash::<true, true, true>(record, bytes),
    }
}

fn main() {
    let (mut room, mut bytes) = (vec![0; 32768], [0; 160]);
    let (mut asked, mut found) = (stdin().lock(), BufWriter::new(stdout()));
    asked.read_exact(&mut room).unwrap();
    while asked.read_exact(&mut bytes).is_ok() {
        let record: Record = std::array::from_fn(|k| u64::from_le_bytes(bytes[8 * k..8 * k + 8].try_into().unwrap()));
        let (offset, length) = (record[11] as usize, record[12] as usize);
        util::KEY.store(record[2], Relaxed);
        let value = answer(&record, &room[offset..offset + length]);
        found.write_all(&value.to_le_bytes()).unwrap();
    }
    found.flush().unwrap();
}
