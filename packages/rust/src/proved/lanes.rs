// Made by scripts/rust_crate from crates/rapidhash_portable/src/lanes.rt: change that file.

//! The rows of every hash: 16-byte pairs folded into lanes, and the lanes joined. They are generic
//! in the number of lanes and written once.
//!
//! The callers are thin: a form is its row widths, its tail's table and what goes into its close
//! (module `tail`). The speed of the hashes depends on the loops here: after a change look at the
//! machine code with `objdump`.

use crate::util::{rapid_mix, read_u64};

const_fn! {
/// Returns a lane, or the seed of a tail, after the pair at byte `at`. With the lane in the first
/// factor, which the definition has second, LLVM needs an instruction less.
#[inline(always)]
pub(crate) const fn fold_pair<const PROTECTED: bool>(bytes: &[u8], at: usize, secret: u64, lane: u64) -> u64 {
    rapid_mix::<PROTECTED>(read_u64(bytes, at + 8) ^ lane, read_u64(bytes, at) ^ secret)
}
}

const_fn! {
/// Folds a row of `WIDTH` pairs at the head of `row` into the first `WIDTH` lanes.
#[inline(always)]
pub(crate) const fn fold_row<const LANES: usize, const WIDTH: usize, const PROTECTED: bool>(
    lanes: &mut [u64; LANES],
    row: &[u8],
    secrets: &[u64],
) {
    let mut i = 0;
    while i < WIDTH {
        lanes[i] = fold_pair::<PROTECTED>(row, 16 * i, secrets[i], lanes[i]);
        i += 1;
    }
}
}

const_fn! {
/// Folds two rows of `WIDTH` pairs at the head of `rows` into the first `WIDTH` lanes: the body of
/// the unrolled loop. Seven lanes do not fit into registers, so each is folded twice in turn.
#[inline(always)]
pub(crate) const fn fold_two_rows<const LANES: usize, const WIDTH: usize, const PROTECTED: bool>(
    lanes: &mut [u64; LANES],
    rows: &[u8],
    secrets: &[u64],
) {
    if WIDTH == 7 {
        fold_two_rows_by_lane::<LANES, WIDTH, PROTECTED>(lanes, rows, secrets);
    } else {
        fold_row::<LANES, WIDTH, PROTECTED>(lanes, rows, secrets);
        fold_row::<LANES, WIDTH, PROTECTED>(lanes, rows.split_at(16 * WIDTH).1, secrets);
    }
}
}

const_fn! {
/// Folds two rows lane by lane: lanes that are in memory are then loaded and stored once. For lanes
/// in registers it needs one register more.
#[inline(always)]
pub(crate) const fn fold_two_rows_by_lane<const LANES: usize, const WIDTH: usize, const PROTECTED: bool>(
    lanes: &mut [u64; LANES],
    rows: &[u8],
    secrets: &[u64],
) {
    let mut i = 0;
    while i < WIDTH {
        let first = fold_pair::<PROTECTED>(rows, 16 * i, secrets[i], lanes[i]);
        lanes[i] = fold_pair::<PROTECTED>(rows, 16 * (WIDTH + i), secrets[i], first);
        i += 1;
    }
}
}

const_fn! {
/// Folds all rows of `WIDTH` pairs into the first `WIDTH` lanes, and returns the bytes after them,
/// of which there are at least `LEAST`. The lanes may have folded a prefix of the message before.
/// Without `COMPACT` the loop folds two rows per iteration, and then at most one more.
#[inline(always)]
pub(crate) const fn fold_rows<
    'x,
    const LANES: usize,
    const WIDTH: usize,
    const LEAST: usize,
    const COMPACT: bool,
    const PROTECTED: bool,
>(
    lanes: &mut [u64; LANES],
    bytes: &'x [u8],
    secrets: &[u64],
) -> &'x [u8] {
    let mut rest = bytes;
    if !COMPACT {
        while rest.len() >= 32 * WIDTH + LEAST {
            fold_two_rows::<LANES, WIDTH, PROTECTED>(lanes, rest, secrets);
            rest = rest.split_at(32 * WIDTH).1;
        }
    }
    while rest.len() >= 16 * WIDTH + LEAST {
        fold_row::<LANES, WIDTH, PROTECTED>(lanes, rest, secrets);
        rest = rest.split_at(16 * WIDTH).1;
    }
    rest
}
}

const_fn! {
/// Returns the XOR of the first `WIDTH` lanes.
#[inline(always)]
pub(crate) const fn join<const LANES: usize, const WIDTH: usize>(lanes: &[u64; LANES]) -> u64 {
    let mut all = 0;
    let mut i = 0;
    while i < WIDTH {
        all ^= lanes[i];
        i += 1;
    }
    all
}
}

const_fn! {
/// Returns the seed after all rows of `LANES` pairs, and the remaining bytes.
#[inline(always)]
pub(crate) const fn wide_lanes<'x, const LANES: usize, const LEAST: usize, const COMPACT: bool, const PROTECTED: bool>(
    bytes: &'x [u8],
    seed: u64,
    secrets: &[u64],
) -> (u64, &'x [u8]) {
    let mut lanes = [seed; LANES];
    join_wide::<LANES, LEAST, COMPACT, PROTECTED>(&mut lanes, bytes, secrets)
}
}

const_fn! {
/// Returns the seed after all rows of seven pairs and then of three, which the first three lanes
/// fold, and the remaining bytes.
#[inline(always)]
pub(crate) const fn mixed_lanes<'x, const COMPACT: bool, const PROTECTED: bool>(
    bytes: &'x [u8],
    seed: u64,
    secrets: &[u64; 7],
) -> (u64, &'x [u8]) {
    let mut lanes = [seed; 7];
    join_mixed::<COMPACT, PROTECTED>(&mut lanes, bytes, secrets)
}
}

const_fn! {
/// Returns the same as [`wide_lanes`], if the lanes have already folded a prefix and `bytes` follow
/// it.
#[inline(always)]
pub(crate) const fn join_wide<'x, const LANES: usize, const LEAST: usize, const COMPACT: bool, const PROTECTED: bool>(
    lanes: &mut [u64; LANES],
    bytes: &'x [u8],
    secrets: &[u64],
) -> (u64, &'x [u8]) {
    let rest = fold_rows::<LANES, LANES, LEAST, COMPACT, PROTECTED>(lanes, bytes, secrets);
    (join::<LANES, LANES>(lanes), rest)
}
}

const_fn! {
/// Returns the same as [`mixed_lanes`], if the lanes have already folded a prefix and `bytes`
/// follow it.
#[inline(always)]
pub(crate) const fn join_mixed<'x, const COMPACT: bool, const PROTECTED: bool>(
    lanes: &mut [u64; 7],
    bytes: &'x [u8],
    secrets: &[u64; 7],
) -> (u64, &'x [u8]) {
    let wide = fold_rows::<7, 7, 0, COMPACT, PROTECTED>(lanes, bytes, secrets);
    let rest = fold_rows::<7, 3, 0, COMPACT, PROTECTED>(lanes, wide, secrets);
    (join::<7, 7>(lanes), rest)
}
}
