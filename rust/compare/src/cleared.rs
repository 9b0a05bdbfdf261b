// No old starts: the rule of request #107. The build script includes this file, or the copy of it that stands beside the Rust's files, which is how a
// wrong version of it is made.

use crate::case::{Case, Outcome};
use crate::records::TILE;
use crate::rule::Rule;

/// Makes the Rust's reading of a layout, read or reused, one that leaves no old start: if it is accepted, zeros stand behind the
/// closing ones. A refusal has the record given, and keeps it whole.
pub fn clear(case: &Case, out: &mut Outcome) {
    if case.kind.reads_layout() && out.answer == 0 && clear_record(&mut out.record) {
        out.rule = Some(Rule::Cleared);
    }
}

/// Clears the layout of a record, which is its last numbers, and answers whether it had an old start.
fn clear_record(record: &mut [i64]) -> bool {
    let first = record.len() - TILE;
    let t = &mut record[first..];
    let (cols, rows) = (t[4], t[8]);
    let old_cols = clear_starts(&mut t[9..74], cols);
    let old_rows = clear_starts(&mut t[74..], rows);
    old_cols || old_rows
}

/// Zeros behind the closing start, which stands behind the starts of so many tiles; answers whether there was another number.
fn clear_starts(starts: &mut [i64], tiles: i64) -> bool {
    let mut old = false;
    for start in starts.iter_mut().skip(tiles as usize + 1) {
        old |= *start != 0;
        *start = 0;
    }
    old
}
