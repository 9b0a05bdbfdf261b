//! Layouts: what they are read for, the record given, and layouts that were read.

use super::bytes;
use crate::case::Case;
use crate::records::{Numbers, TILE, from::theirs as from};
use crate::rng::Rng;
use oracle::Reader;
use std::ops::Range;

/// Multiplier, frame code and sequence code.
pub const PAIRS: [[i64; 3]; 4] = [[1, 0, 0], [1, 1, 1], [1, 2, 2], [2, 1, 2]];
/// Where the column starts and the row starts of a layout begin, and where their counts stand.
pub const STARTS: [(usize, usize); 2] = [(9, 4), (74, 8)];

/// The places behind the closing starts, of the columns and of the rows; none of a record with more than 64 tiles.
pub fn places_behind(row: &[i64]) -> [Range<usize>; 2] {
    STARTS.map(|(first, tiles)| first + row[tiles] as usize + 1..first + 65)
}

/// A width or height in the domain, often beside a whole number of superblocks.
pub fn size(rng: &mut Rng) -> i64 {
    let n = match rng.below(4) {
        0 => rng.wide(16) as i64,
        1 => rng.range(1, 65_536),
        2 => 64 * rng.range(1, 80) + rng.range(-9, 9),
        _ => 64 * (rng.wide(10) as i64 + 1) + rng.pick(&[-8, -7, -1, 0, 1, 8]),
    };
    n.clamp(1, 65_536)
}

/// A size outside the domain.
fn wrong_size(rng: &mut Rng) -> i64 {
    rng.pick(&[
        0,
        -1,
        65_537,
        65_600,
        i64::from(i32::MIN),
        i64::from(i32::MAX),
    ])
}

/// A pair, width, height, level and tier in the domain.
pub fn domain(rng: &mut Rng) -> [i64; 7] {
    let [sbmul, frame, seq] = rng.pick(&PAIRS);
    [
        sbmul,
        frame,
        seq,
        size(rng),
        size(rng),
        rng.range(0, 31),
        rng.range(0, 1),
    ]
}

/// One argument of a layout that is outside the domain, or a pair that may be.
pub fn spoil(rng: &mut Rng, b: &mut [i64; 7]) {
    match rng.below(7) {
        0 => b[0] = rng.pick(&[0, -1, 2, 3, i64::from(i32::MIN)]),
        1 => b[1] = rng.range(0, 255),
        2 => b[2] = rng.range(0, 4),
        3 => b[3] = wrong_size(rng),
        4 => b[4] = wrong_size(rng),
        5 => b[5] = rng.range(32, 255),
        _ => b[6] = rng.range(2, 255),
    }
}

/// Tiling bits: of several kinds, short or long.
pub fn tiling_bits(rng: &mut Rng, data: &mut Vec<u8>) {
    if rng.percent(80) {
        bytes::fill(rng, data, 60);
    } else {
        bytes::fill(rng, data, 200);
    }
    // Without data, and with zeros, no layout is uniform.
    if rng.flag()
        && let Some(first) = data.first_mut()
    {
        *first |= 0x80;
    }
}

/// A layout as the Rust reads it for some size, over the record in `row`, and what it was read for.
pub fn read_layout(rng: &mut Rng, row: &mut Vec<i64>, pair: [i64; 3]) -> [i64; 7] {
    let mut data = Vec::new();
    loop {
        let mut b = domain(rng);
        b[..3].copy_from_slice(&pair);
        data.clear();
        tiling_bits(rng, &mut data);
        let mut t = from::tile_info(row);
        let read = Reader::new(&data).parse_tile_info(
            &mut t,
            b[0] as i32,
            b[1] as u8,
            b[2] as u8,
            b[3] as i32,
            b[4] as i32,
            b[5] as u8,
            b[6] as u8,
        );
        if read.is_ok() {
            row.clear();
            t.numbers(row);
            return b;
        }
    }
}

/// A record given: fresh, with the layout of another size in it, or full of old numbers.
pub fn given(rng: &mut Rng, row: &mut Vec<i64>) {
    row.clear();
    row.resize(TILE, 0);
    match rng.below(4) {
        0 => {}
        1 => {
            let pair = rng.pick(&PAIRS);
            read_layout(rng, row, pair);
        }
        _ => old_numbers(rng, row),
    }
}

fn old_numbers(rng: &mut Rng, row: &mut [i64]) {
    row[0] = rng.range(0, 1);
    for number in &mut row[1..9] {
        *number = i64::from(rng.byte());
    }
    for start in &mut row[9..] {
        *start = i64::from(rng.number() as u16);
    }
}

pub fn layout_case(rng: &mut Rng, case: &mut Case) {
    given(rng, &mut case.args);
    let mut b = domain(rng);
    if rng.percent(4) {
        spoil(rng, &mut b);
    }
    case.args.extend(b);
    tiling_bits(rng, &mut case.data);
}

/// A layout with starts that never fall, made by hand: few tiles, some of them empty.
pub fn layout_by_hand(rng: &mut Rng, row: &mut Vec<i64>) {
    row.clear();
    row.resize(TILE, 0);
    old_numbers(rng, row);
    for (tiles, log2, starts) in [(4, 3, 9..74), (8, 7, 74..139)] {
        let count = if rng.percent(97) {
            rng.range(1, 5)
        } else {
            rng.range(1, 64)
        };
        row[tiles] = count;
        row[log2] = rng.range(0, 6);
        let starts = &mut row[starts][..=count as usize];
        starts.fill_with(|| rng.below(1025) as i64);
        starts.sort_unstable();
    }
}

/// A width or a height: about where one of the starts stands, or any.
pub fn extent(rng: &mut Rng, starts: &[i64], code: i64) -> i64 {
    let start = starts[rng.below(starts.len() as u64) as usize];
    match rng.below(8) {
        0 => 65_536,
        1 => rng.range(1, 65_536),
        2 => (start << (6 + code)) + rng.range(-300, 300),
        _ => (start << (6 + code)) + rng.range(-1, 1),
    }
    .clamp(1, 65_536)
}

/// The layout, the superblock code, the frame's width and height, the buffer's length and its first number.
pub fn rectangles_case(rng: &mut Rng, case: &mut Case) {
    let row = &mut case.args;
    if rng.percent(5) {
        row.resize(TILE, 0);
        let pair = rng.pick(&PAIRS);
        read_layout(rng, row, pair);
    } else {
        layout_by_hand(rng, row);
    }
    if rng.percent(15) {
        let (cols, rows) = (row[4] as u64, row[8] as u64);
        match rng.below(4) {
            0 => row[9 + rng.below(cols + 1) as usize] = i64::from(rng.number() as u16 % 2048),
            1 => row[74 + rng.below(rows + 1) as usize] = i64::from(rng.number() as u16 % 2048),
            2 => row[4] = rng.pick(&[0, 65, 255]),
            _ => row[8] = rng.pick(&[0, 65, 255]),
        }
    }
    let numbers = 4 * row[4].min(64) * row[8].min(64);
    let code = if rng.percent(97) {
        rng.range(0, 2)
    } else {
        rng.range(3, 255)
    };
    let len = match rng.below(8) {
        0 => numbers - rng.range(1, 4),
        1 => rng.below(numbers as u64 + 1) as i64,
        2..=4 => numbers,
        _ => numbers + rng.range(1, 9),
    };
    let [mut w, mut h] = [(4, 9), (8, 74)].map(|(tiles, starts)| {
        let closing = starts + row[tiles].min(64) as usize;
        extent(rng, &row[starts..=closing], code.min(2))
    });
    if rng.percent(3) {
        let size = if rng.percent(50) { &mut w } else { &mut h };
        *size = rng.pick(&[0, -1, 65_537, i64::from(i32::MIN), i64::from(i32::MAX)]);
    }
    row.extend([code, w, h, len.max(0), i64::from(rng.number() as u32)]);
}
