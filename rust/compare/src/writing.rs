// A layout written as bits: the rule of request #106, with all starts of the record as #107 has it. The build script includes this file, or the copy of it
// that stands beside the Rust's files, which is how a wrong version of it is made.

use crate::by_rule::in_domain;
use crate::case::{Case, Outcome};
use crate::records::TILE;
use crate::rule::Rule;
use crate::theirs::fresh_layout;

/// Bits, the first one first.
type Row = Vec<bool>;

/// What is lent: a count of bits, and so many bytes, each one more than the one before it.
pub fn lent(a: &[i64], out: &mut Outcome) {
    let (len, first) = (a[TILE + 7], a[TILE + 8]);
    out.record.push(0);
    out.record.extend((0..len).map(|i| (first + i) % 256));
}

/// The answer, the count of bits and the bytes after the call, and if it is accepted how many bits the Rust uses to read them,
/// and what it reads. The arguments are the layout's 139 numbers, those that it is read with, and of the bytes lent how many
/// they are and the first. The data, if there is any, is what the layout was read from.
pub fn write(case: &Case, out: &mut Outcome) {
    out.rule = Some(Rule::Writing);
    lent(&case.args, out);
    match written(case) {
        Ok(row) => {
            put(&row, &mut out.record);
            out.record.push(row.len() as i64);
            out.record.push(i64::from(case.args[0] != 0));
            out.record.extend(&case.args[1..TILE]);
        }
        Err(refusal) => out.answer = refusal,
    }
}

/// The bits to write, or the number of the refusal.
fn written(case: &Case) -> Result<Row, i64> {
    let (t, b) = case.args.split_at(TILE);
    if !in_domain(b) {
        return Err(4);
    }
    let row = used(case).unwrap_or_else(|| own(t, b));
    if !reads_as(&row, t, b) {
        return Err(8);
    }
    if b[7] < row.len().div_ceil(8) as i64 {
        return Err(5);
    }
    Ok(row)
}

/// The bytes that the bits of a record need.
pub fn needed(a: &[i64]) -> i64 {
    let (t, b) = a.split_at(TILE);
    own(t, b).len().div_ceil(8) as i64
}

/// The bits of the data that were used, if they read as the layout.
fn used(case: &Case) -> Option<Row> {
    let (t, b) = case.args.split_at(TILE);
    let (read, used) = fresh_layout(b, &case.data).filter(|_| !case.data.is_empty())?;
    let bit = |i: usize| case.data[i / 8] >> (7 - i % 8) & 1 != 0;
    same(&read, t).then(|| (0..used).map(bit).collect())
}

fn reads_as(row: &[bool], t: &[i64], b: &[i64]) -> bool {
    fresh_layout(b, &packed(row)).is_some_and(|(read, _)| same(&read, t))
}

/// Whether what was read is the record, all of it. Zeros stand behind the closing starts of what was read.
fn same(read: &[i64], t: &[i64]) -> bool {
    (read[0] != 0) == (t[0] != 0)
        && read[1..9] == t[1..9]
        && read[9..74] == t[9..74]
        && read[74..] == t[74..]
}

/// Bytes of eight bits, the last one filled up with zeros.
fn packed(row: &[bool]) -> Vec<u8> {
    let bit = |part: &[bool], i: usize| part.get(i).copied().unwrap_or(false);
    let byte = |part: &[bool]| (0..8).fold(0, |n, i| n << 1 | u8::from(bit(part, i)));
    row.chunks(8).map(byte).collect()
}

/// The count, and the bytes over the first of those lent.
fn put(row: &[bool], record: &mut [i64]) {
    let bytes = packed(row);
    record[0] = row.len() as i64;
    for (i, &byte) in bytes.iter().enumerate() {
        record[1 + i] = i64::from(byte);
    }
}

/// The bits of a record: its flag, then its logarithms or its sizes. A size that can't be told has none.
fn own(t: &[i64], b: &[i64]) -> Row {
    let mut row = vec![t[0] != 0];
    if t[0] != 0 {
        put_log2(&mut row, t[1], t[2], t[3]);
        put_log2(&mut row, t[5], t[6], t[7]);
    } else {
        let (widths, heights) = (sizes(t[4], &t[9..74]), sizes(t[8], &t[74..]));
        let [sbw, sbh] = superblocks(b);
        let widest = widths.iter().copied().max().unwrap_or(1);
        put_sizes(&mut row, &widths, sbw, width_limit(b));
        put_sizes(&mut row, &heights, sbh, row_limit(b, widest));
    }
    row
}

/// A one for each step above the least, and a zero unless the greatest is reached.
fn put_log2(row: &mut Row, least: i64, most: i64, log2: i64) {
    row.extend((least..log2).map(|_| true));
    if log2 < most {
        row.push(false);
    }
}

/// Each start less the one before it, up to the closing one.
fn sizes(tiles: i64, starts: &[i64]) -> Vec<i64> {
    let count = tiles.min(64) as usize;
    (0..count).map(|i| starts[i + 1] - starts[i]).collect()
}

/// Each size is one of as many as remain, but no more than the limit.
fn put_sizes(row: &mut Row, sizes: &[i64], whole: i64, limit: i64) {
    let mut remains = whole;
    for &size in sizes {
        put_uniform(row, remains.min(limit), size - 1);
        remains -= size;
    }
}

/// A number below `max`, as get_uniform reads it.
fn put_uniform(row: &mut Row, max: i64, value: i64) {
    if max <= 1 || !(0..max).contains(&value) {
        return;
    }
    let len = max.ilog2() + 1;
    let short = (1 << len) - max;
    if value < short {
        put_bits(row, value, len - 1);
    } else {
        put_bits(row, value + short, len);
    }
}

/// The lowest bits of a number.
fn put_bits(row: &mut Row, value: i64, len: u32) {
    row.extend((0..len).rev().map(|i| value >> i & 1 != 0));
}

/// Across and down, in the frame's superblocks. The numbers here and below are multiplier, codes, width, height, level, tier.
pub fn superblocks(b: &[i64]) -> [i64; 2] {
    let side = 64 << b[1];
    [b[3], b[4]].map(|samples| (samples + side - 1) / side)
}

/// How often the limits double at the level: the width's, and the area's.
fn doublings(b: &[i64]) -> [i64; 2] {
    let (high, higher) = (i64::from(b[5] >= 14), i64::from(b[5] >= 18));
    let tier = high * b[6];
    [higher + tier, high + higher + tier]
}

/// The widest column, in superblocks.
pub fn width_limit(b: &[i64]) -> i64 {
    (4096 << doublings(b)[0]) >> (6 + b[1])
}

/// The least logarithm at which so many times the limit is enough.
pub fn least_log2(limit: i64, n: i64) -> i64 {
    (0..).find(|&log2| n <= limit << log2).unwrap()
}

/// The least logarithm of the columns.
pub fn least_cols(b: &[i64]) -> i64 {
    least_log2(width_limit(b), superblocks(b)[0])
}

/// The highest row, in superblocks, beside a widest column.
pub fn row_limit(b: &[i64], widest: i64) -> i64 {
    let [sbw, sbh] = superblocks(b);
    let area_limit = (9_437_184 << doublings(b)[1]) >> (2 * (6 + b[1]));
    let least_tiles = least_log2(area_limit, sbw * sbh).max(least_cols(b));
    let area = if least_tiles > 0 {
        (sbw * sbh) >> (least_tiles + 1)
    } else {
        sbw * sbh
    };
    (area / widest.max(1)).max(1)
}
