//! The inputs of write and of over: a layout's record, and what it is read with.

use super::tiles::{LARGE, of_case, request};
use super::{bytes, lengths};
use crate::case::Case;
use crate::kind::Kind;
use crate::make::layouts::{PAIRS, given, layout_case};
use crate::make::writing;
use crate::programs::answer::RECORD;
use crate::records::TILE;
use crate::rng::Rng;
use crate::theirs::fresh_layout;

/// A record in bytes: nine numbers, then the starts, two bytes each.
fn record(t: &[i64]) -> Vec<u8> {
    let numbers = t[..9].iter().map(|&number| number as u8);
    let starts = t[9..TILE]
        .iter()
        .flat_map(|&start| (start as u16).to_le_bytes());
    numbers.chain(starts).collect()
}

/// A request, a record and the size of a buffer.
fn write_input(b: &[i64], t: &[i64], size: i64) -> Vec<u8> {
    let size = (size as u16).to_le_bytes();
    [request(b, &[]), record(t), size.to_vec()].concat()
}

/// The input of a case that writes a layout.
pub fn write_of_case(case: &Case) -> Vec<u8> {
    let (t, b) = case.args.split_at(TILE);
    write_input(b, t, b[7])
}

/// A record, and the input of tile.
pub fn over_of_case(case: &Case) -> Vec<u8> {
    [record(&case.args), of_case(case)].concat()
}

/// Layouts of each pair, level and tier, with buffers that are long enough and too short; each byte before the starts at its edges;
/// each length about the input's own, and long ones.
pub fn to_write(rng: &mut Rng) -> Vec<Vec<u8>> {
    let mut list = Vec::new();
    for level in 0..32 {
        for tier in 0..2 {
            let [sbmul, frame, seq] = rng.pick(&PAIRS);
            let b = [sbmul, frame, seq, LARGE[0], LARGE[1], level, tier];
            for bits in [[0xFF; 200], [0x80; 200], [0x7F; 200]] {
                if let Some((t, used)) = fresh_layout(&b, &bits) {
                    let needed = used.div_ceil(8) as i64;
                    let size = needed + rng.pick(&[-1, 0, 0, 1]);
                    list.push(write_input(&b, &t, size.max(0)));
                }
            }
        }
    }
    let b = [1, 0, 0, 256, 128, 0, 0];
    let (t, _) = fresh_layout(&b, &[0x28]).expect("the first example of tile is accepted");
    let good = write_input(&b, &t, 1);
    list.extend(bytes(&good, (0..17).chain(277..279)));
    list.extend(lengths(&good, 0));
    list
}

/// Records of zeros, of ones and of old numbers under layouts of each pair; each byte of the request at its edges; each length about
/// the record's, the request's and the greatest.
pub fn read_over(rng: &mut Rng) -> Vec<Vec<u8>> {
    let mut list = Vec::new();
    for [sbmul, frame, seq] in PAIRS {
        for bits in super::tiles::BITS {
            let mut old = Vec::new();
            given(rng, &mut old);
            for given in [vec![0; TILE], vec![65_535; TILE], old] {
                let tile = request(&[sbmul, frame, seq, 600, 700, 14, 1], bits);
                list.push([record(&given), tile].concat());
            }
        }
    }
    let good = [vec![7; RECORD], super::tiles::example()].concat();
    list.extend(bytes(&good, RECORD..good.len()));
    list.extend(lengths(&good, RECORD));
    list
}

/// As the comparison makes them.
pub fn random_to_write(rng: &mut Rng) -> Vec<u8> {
    let mut case = Case::of(Kind::WriteTileInfo);
    writing::case(rng, &mut case);
    write_of_case(&case)
}

pub fn random_over(rng: &mut Rng) -> Vec<u8> {
    let mut case = Case::of(Kind::ParseTileInfo);
    layout_case(rng, &mut case);
    over_of_case(&case)
}
