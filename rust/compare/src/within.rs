// A reading within a limit: the one rule of it, over any limit. The build script includes this file, or the copy of it that stands beside the Rust's
// files, which is how a wrong version of it is made.

use crate::case::{Case, Limit, Outcome};
use crate::records::TILE;
use crate::rule::Rule;

/// The layout of a record: its last numbers, which in a frame's stand behind the code.
fn layout(record: &[i64]) -> &[i64] {
    &record[record.len() - TILE..]
}

/// Columns and rows of a record.
pub fn tiles(record: &[i64]) -> [i64; 2] {
    let t = layout(record);
    [t[4], t[8]]
}

/// Whether a reading is accepted and has more columns or more rows than the limit.
fn is_too_many(limit: Limit, reading: &Outcome) -> bool {
    let [cols, rows] = tiles(&reading.record);
    reading.answer == 0 && (cols > limit.cols || rows > limit.rows)
}

/// Makes the wall's reading of a case the one within its limit: too many tiles are 6, and the record given comes back. The
/// reader stays where the wall's reading leaves it.
pub fn hold(case: &Case, limit: Limit, out: &mut Outcome) {
    if is_too_many(limit, out) {
        out.rule = Some(Rule::TooMany);
        out.answer = 6;
        out.record.clear();
        out.record.extend(case.given());
    }
}
