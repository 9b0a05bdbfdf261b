// The rectangles of a layout's tiles: the rule of document 01, in the order of request #104 and with the cut of request #105. The build script includes
// this file, or the copy of it that stands beside the Rust's files, which is how a wrong version of it is made.

use crate::case::Outcome;
use crate::records::TILE;
use crate::rule::Rule;

/// The numbers that are lent: so many, from the first one on.
pub fn lent(a: &[i64], out: &mut Outcome) {
    let (len, first) = (a[TILE + 3], a[TILE + 4]);
    out.record
        .extend((0..len).map(|i| i64::from((first + i) as u32)));
}

/// The answer and the numbers after the call. The arguments are the layout's 139 numbers, the superblock code, the frame's
/// width and height, and of the numbers lent how many they are and the first.
pub fn rectangles(a: &[i64], out: &mut Outcome) {
    out.rule = Some(Rule::Rectangles);
    out.answer = answer(a);
    lent(a, out);
    if out.answer == 0 {
        put_tiles(a, &mut out.record);
    }
}

fn answer(a: &[i64]) -> i64 {
    let (t, code, w, h, len) = (&a[..TILE], a[TILE], a[TILE + 1], a[TILE + 2], a[TILE + 3]);
    let starts = never_fall(t[4], &t[9..74]) && never_fall(t[8], &t[74..]);
    if code > 2 || !starts || !is_size(w) || !is_size(h) {
        return 4;
    }
    if len < 4 * t[4] * t[8] {
        return 5;
    }
    0
}

fn never_fall(tiles: i64, starts: &[i64]) -> bool {
    (1..=64).contains(&tiles)
        && starts[..=tiles as usize].is_sorted()
        && starts[tiles as usize] <= 1024
}

fn is_size(n: i64) -> bool {
    (1..=65_536).contains(&n)
}

/// Row by row from the top, and in each row from the left.
fn put_tiles(a: &[i64], out: &mut [i64]) {
    let (cols, rows) = (a[4] as usize, a[8] as usize);
    let mut at = 0;
    for row in 0..rows {
        for col in 0..cols {
            out[at..at + 4].copy_from_slice(&tile(a, col, row));
            at += 4;
        }
    }
}

fn tile(a: &[i64], col: usize, row: usize) -> [i64; 4] {
    let (size, w, h) = (64 << a[TILE], a[TILE + 1], a[TILE + 2]);
    let (left, right) = (cut(a[9 + col] * size, w), cut(a[10 + col] * size, w));
    let (top, bottom) = (cut(a[74 + row] * size, h), cut(a[75 + row] * size, h));
    [left, top, right - left, bottom - top]
}

/// A tile's edge is no further than the frame's.
fn cut(edge: i64, most: i64) -> i64 {
    edge.min(most)
}
