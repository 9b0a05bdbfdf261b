//! The inputs of tile: a request of eight bytes, and tiling bits.

use super::{bytes, lengths};
use crate::bits::BitWriter;
use crate::case::Case;
use crate::make::layouts::{domain, tiling_bits};
use crate::make::within::PANEL;
use crate::records::TILE;
use crate::rng::Rng;

/// Widths and heights about each boundary: of a byte, of superblocks, of the limits and of the domain.
pub const SIZES: [i64; 32] = [
    1, 2, 8, 56, 57, 58, 63, 64, 65, 128, 256, 257, 320, 330, 512, 600, 1024, 4096, 4097, 4160,
    4672, 8192, 8193, 16_384, 16_385, 32_768, 32_769, 65_280, 65_281, 65_472, 65_535, 65_536,
];
/// Tiling bits: none, uniform, not uniform, short and long.
pub const BITS: [&[u8]; 8] = [
    &[],
    &[0x80],
    &[0xE0],
    &[0xFF; 3],
    &[0x28],
    &[0x00; 60],
    &[0x7F],
    &[0x7F, 0xFF, 0xFF, 0xFF, 0xFF, 0xFF, 0xFF, 0xFF],
];
/// A frame so wide and so high that its layout depends on each level and tier at which a limit changes.
pub const LARGE: [i64; 2] = [16_384, 8192];

/// Multiplier, codes, width, height, level and tier in bytes, and tiling bits. The multiplier is not told.
pub fn request(b: &[i64], bits: &[u8]) -> Vec<u8> {
    let mut input = Vec::with_capacity(8 + bits.len());
    for size in [b[3], b[4]] {
        input.extend(((size - 1).clamp(0, 65_535) as u16).to_le_bytes());
    }
    input.extend([b[1], b[2], b[5], b[6]].map(|number| number as u8));
    input.extend(bits);
    input
}

/// A frame of superblocks of 64, at a level and a tier.
fn plain([w, h]: [i64; 2], level: i64, tier: i64, bits: &[u8]) -> Vec<u8> {
    request(&[1, 0, 0, w, h, level, tier], bits)
}

/// The input of a case that reads a layout, whatever the record given.
pub fn of_case(case: &Case) -> Vec<u8> {
    request(&case.args[TILE..], &case.data)
}

/// Docs/PROGRAMS.md's first one.
pub fn example() -> Vec<u8> {
    plain([256, 128], 0, 0, &[0x28])
}

/// Each level and tier, and some that there are not.
pub fn levels() -> Vec<Vec<u8>> {
    let mut list = Vec::new();
    for level in (0..=33).chain([255]) {
        for tier in [0, 1, 2, 255] {
            list.push(plain(LARGE, level, tier, &[0x80]));
        }
        list.push(plain(LARGE, level, 1, BITS[7]));
    }
    list
}

/// Each pair of codes, and some that are none.
pub fn pairs() -> Vec<Vec<u8>> {
    let codes = [0, 1, 2, 3, 255];
    codes
        .iter()
        .flat_map(|&frame| codes.map(|seq| request(&[1, frame, seq, 600, 700, 0, 0], &[0xC0])))
        .collect()
}

/// Columns and rows beside the panel's: without bits each superblock is a tile, and so it is with ones.
pub fn beside_panel() -> Vec<Vec<u8>> {
    let mut list = Vec::new();
    for cols in PANEL[0] - 1..=PANEL[0] + 2 {
        for rows in PANEL[1] - 1..=PANEL[1] + 2 {
            for bits in [BITS[0], BITS[3]] {
                list.push(plain([64 * cols, 64 * rows], 0, 0, bits));
            }
        }
    }
    list
}

/// Frames about eight times as wide as they are high, and the other way; tiles about where their sizes have one more digit; rows a
/// quarter as high as they are wide in a drawing, and columns a third as wide as they are high.
pub fn pictures() -> Vec<Vec<u8>> {
    let mut list = vec![plain([1600; 2], 0, 0, &[0xBE]), listed([20, 1], [20, 3])];
    let ratios = [511, 512, 513].map(|w| [w, 64]);
    let digits = [[99, 90], [999, 900]].map(|[w, h]| [0, 1, 2].map(|more| [w + more, h]));
    for [w, h] in ratios.into_iter().chain(digits.concat()) {
        list.extend([[w, h], [h, w]].map(|size| plain(size, 0, 0, &[0x80])));
    }
    list
}

/// So many superblocks across in columns of so many, and down in rows.
fn listed(across: [u64; 2], down: [u64; 2]) -> Vec<u8> {
    let mut bits = BitWriter::default();
    bits.bit(false);
    for [whole, size] in [across, down] {
        for remains in (1..=whole).rev().step_by(size as usize) {
            bits.uniform(size.min(remains) - 1, remains);
        }
    }
    let [w, h] = [across, down].map(|[whole, _]| 64 * whole as i64);
    plain([w, h], 0, 0, bits.bytes())
}

fn sizes() -> Vec<Vec<u8>> {
    let both = |size| [[size, 64], [64, size], [size, 4000]];
    let frames = SIZES.into_iter().flat_map(both);
    frames
        .flat_map(|size| [BITS[0], BITS[1]].map(|bits| plain(size, 0, 0, bits)))
        .collect()
}

fn bits() -> Vec<Vec<u8>> {
    let frames = [[256, 128], [330, 64], [600, 700], [4096, 4096], [4160, 64]];
    frames
        .into_iter()
        .flat_map(|size| BITS.map(|bits| plain(size, 0, 0, bits)))
        .collect()
}

pub fn by_rule() -> Vec<Vec<u8>> {
    [
        lengths(&example(), 0),
        bytes(&example(), 0..8),
        levels(),
        pairs(),
        sizes(),
        bits(),
    ]
    .concat()
}

/// A request of the domain, or with a byte that may be outside it.
pub fn random(rng: &mut Rng) -> Vec<u8> {
    let mut bits = Vec::new();
    let b = domain(rng);
    tiling_bits(rng, &mut bits);
    let mut input = request(&b, &bits);
    if rng.percent(4) {
        input[4 + rng.below(4) as usize] = rng.byte();
    }
    input
}
