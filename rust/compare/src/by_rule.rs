//! Where document 01 decides and not the Rust: the limits and operations that it adds.

use crate::case::{Case, Outcome, Place};
use crate::kind::Kind;
use crate::records::{GRAIN, HEADER, SEG, TILE};
use crate::rule::Rule;
use crate::{rectangles, writing};

/// What stands in each number that is lent for a header or for film grain parameters.
const LENT: i64 = 7;

/// The outcome, if document 01 alone decides it.
pub fn decided(case: &Case, out: &mut Outcome) -> bool {
    let a = &case.args;
    match case.kind {
        kind if is_short(kind, &case.lent) => short(case, out),
        Kind::TileRectangles => rectangles::rectangles(a, out),
        Kind::WriteTileInfo => writing::write(case, out),
        Kind::ParseTileInfo | Kind::ParseTileInfoWithin if !in_domain(&a[TILE..]) => {
            outside_domain(case, out);
        }
        Kind::ParseTileInfoFrmhdr | Kind::ParseTileInfoFrmhdrWithin if !in_frame_domain(a) => {
            outside_domain(case, out);
        }
        Kind::ParseFilmGrainData if !(0..=3).contains(&a[0]) => outside_domain(case, out),
        kind if beyond_limit(kind, a) => {
            out.rule = Some(Rule::Limit);
            out.place = Place {
                error: true,
                ..case.settled()
            };
        }
        _ => return false,
    }
    true
}

fn is_short(kind: Kind, lent: &[i64]) -> bool {
    lent.iter()
        .zip(kind.full_lengths())
        .any(|(len, full)| len < full)
}

/// Nothing that was lent changes, the place included.
fn short(case: &Case, out: &mut Outcome) {
    out.rule = Some(Rule::Short);
    out.answer = 5;
    out.place = case.place;
    lent_record(case, out);
}

/// The record that was lent.
fn lent_record(case: &Case, out: &mut Outcome) {
    let a = &case.args;
    match case.kind {
        Kind::ParseSeqHdr => out.record.resize(HEADER, LENT),
        Kind::ParseFilmGrainData => out.record.resize(GRAIN, LENT),
        Kind::ParseSegInfo => out.record.extend(&a[..SEG]),
        Kind::TileRectangles => rectangles::lent(a, out),
        Kind::WriteTileInfo => writing::lent(a, out),
        _ => out.record.extend(case.given()),
    }
}

/// The limits that document 01 adds; the Rust answers there.
fn beyond_limit(kind: Kind, a: &[i64]) -> bool {
    const TOP: i64 = 1 << 31;
    match kind {
        Kind::GetUniform | Kind::GetRefUniform => a[0] >= TOP,
        Kind::GetBitsSubexp => a[1] > 1 << 30 && a[1] < TOP,
        Kind::GetBitsSubexpU => a[1] >= TOP && a[0] < a[1] && (0..32).contains(&a[2]),
        _ => false,
    }
}

fn outside_domain(case: &Case, out: &mut Outcome) {
    out.rule = Some(Rule::Domain);
    out.answer = 4;
    out.place = case.settled();
    lent_record(case, out);
}

fn is_size(n: i64) -> bool {
    (1..=65_536).contains(&n)
}

/// Multiplier, frame code, sequence code, width, height, level, tier.
pub fn in_domain(b: &[i64]) -> bool {
    matches!(
        (b[0], b[1], b[2]),
        (1, 0, 0) | (1, 1, 1) | (1, 2, 2) | (2, 1, 2)
    ) && is_size(b[3])
        && is_size(b[4])
        && (0..=31).contains(&b[5])
        && (0..=1).contains(&b[6])
}

fn in_frame_domain(a: &[i64]) -> bool {
    (0..=3).contains(&a[0])
        && is_size(a[1])
        && is_size(a[2])
        && (0..=2).contains(&a[4 + TILE + 5])
        && is_usable(&a[4 + TILE..])
}

/// A sequence record that can be used for a frame: code, sizes, level, tier, tiling, layout.
fn is_usable(seq: &[i64]) -> bool {
    let t = &seq[6..];
    (0..=2).contains(&seq[0])
        && is_size(seq[1])
        && is_size(seq[2])
        && (0..=31).contains(&seq[3])
        && (0..=1).contains(&seq[4])
        && (seq[5] == 0 || (are_usable(t[4], t[3], &t[9..74]) && are_usable(t[8], t[7], &t[74..])))
}

fn are_usable(tiles: i64, log2: i64, starts: &[i64]) -> bool {
    (1..=64).contains(&tiles)
        && log2 <= 6
        && starts[..=tiles as usize].iter().all(|&start| start <= 1024)
}
