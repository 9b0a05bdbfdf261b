//! All inputs of up to two bytes, from every place in them and with arguments at every boundary.

use crate::case::{Case, Place};
use crate::kind::Kind;
use crate::make::layouts::PAIRS;
use crate::make::writing::give_layout;
use crate::records::{SEG, TILE};

/// Every input of some lengths, from every place, with every row of arguments.
struct Block {
    inputs: u64,
    places: Vec<Place>,
    args: Vec<Vec<i64>>,
}

impl Block {
    fn cases(&self) -> u64 {
        self.inputs * self.places.len() as u64 * self.args.len() as u64
    }

    fn fill(&self, index: u64, case: &mut Case) {
        let (rest, args) = split(index, self.args.len());
        let (input, place) = split(rest, self.places.len());
        case.args.clone_from(&self.args[args]);
        case.place = self.places[place];
        case.data.clear();
        match input {
            0 => {}
            1..=256 => case.data.push((input - 1) as u8),
            _ => case.data.extend(((input - 257) as u16).to_be_bytes()),
        }
    }
}

fn split(index: u64, n: usize) -> (u64, usize) {
    (index / n as u64, (index % n as u64) as usize)
}

/// The exhaustive part of a kind.
pub struct Exhaustive {
    blocks: Vec<Block>,
}

impl Exhaustive {
    /// Inputs of up to `bytes` bytes, at most two.
    pub fn of(kind: Kind, bytes: u32) -> Self {
        let inputs = inputs(bytes);
        let block = |args: Vec<Vec<i64>>, places: Vec<Place>| Block {
            inputs,
            places,
            args,
        };
        let blocks = match kind {
            Kind::Rows | Kind::TileRectangles | Kind::Callers => vec![],
            Kind::ParseSeqHdr => vec![block(vec![vec![0], vec![1]], few_places())],
            Kind::ParseSegInfo => vec![block(seg_args(), few_places())],
            Kind::ParseFilmGrainData => {
                vec![block(
                    (0..4).map(|layout| vec![layout]).collect(),
                    few_places(),
                )]
            }
            Kind::ParseTileInfoFrmhdr => vec![block(frame_args(), few_places())],
            Kind::ParseTileInfoWithin => {
                let args = layout_args(&[14], &[[256, 128], [1150, 600]]);
                vec![block(limited(args, &LIMITS), few_places())]
            }
            Kind::ParseTileInfoFrmhdrWithin => {
                vec![block(limited(frame_args(), &LIMITS), few_places())]
            }
            Kind::WriteTileInfo => {
                let mut args = layout_args(&[14], &[[256, 128], [1150, 600]]);
                for row in &mut args {
                    row[..TILE].fill(0);
                    row.extend([3, 0xA5]);
                }
                vec![block(args, vec![Place::default()])]
            }
            Kind::ParseTileInfo => vec![
                block(layout_args(&[0, 14, 18], &SIZES), few_places()),
                Block {
                    inputs: inputs.min(257),
                    places: vec![Place::default()],
                    args: layout_args(&(0..32).collect::<Vec<i64>>(), &SIZES),
                },
            ],
            kind => vec![block(reading_args(kind), all_places())],
        };
        Self { blocks }
    }

    pub fn cases(&self) -> u64 {
        self.blocks.iter().map(Block::cases).sum()
    }

    pub fn fill(&self, mut index: u64, case: &mut Case) {
        for block in &self.blocks {
            if index < block.cases() {
                block.fill(index, case);
                if case.kind == Kind::WriteTileInfo {
                    give_layout(case);
                }
                return;
            }
            index -= block.cases();
        }
        unreachable!("the exhaustive part has no case {index}");
    }
}

fn inputs(bytes: u32) -> u64 {
    (0..=bytes).map(|n| 256u64.pow(n)).sum()
}

/// Each bit of two bytes, the end, places past it, each with and without the error.
fn all_places() -> Vec<Place> {
    let inside = (0..=16).map(|bit| (bit / 8, (bit % 8) as u32));
    let odd = [(0, 8), (1, 255), (2, 1), (usize::MAX, 0)];
    inside
        .chain(odd)
        .flat_map(|(byte, used)| [false, true].map(|error| Place { byte, used, error }))
        .collect()
}

fn few_places() -> Vec<Place> {
    [(0, 0, false), (0, 0, true), (0, 3, false), (1, 0, false)]
        .map(|(byte, used, error)| Place { byte, used, error })
        .to_vec()
}

fn reading_args(kind: Kind) -> Vec<Vec<i64>> {
    const TOP: i64 = 1 << 31;
    let singles = |list: &[i64]| list.iter().map(|&n| vec![n]).collect();
    match kind {
        Kind::GetBits | Kind::GetSbits => {
            (-1..=33).chain([-TOP, TOP - 1]).map(|n| vec![n]).collect()
        }
        Kind::GetUniform => singles(&[
            0,
            1,
            2,
            3,
            4,
            5,
            7,
            8,
            9,
            64,
            65,
            255,
            256,
            257,
            65_536,
            TOP - 1,
            TOP,
            2 * TOP - 1,
        ]),
        Kind::GetRefUniform => [0, 1, 2, 3, 5, 65, TOP - 1, TOP]
            .into_iter()
            .flat_map(|max| [0, 1, max].map(|def| vec![max, def]))
            .collect(),
        Kind::GetGolomb => singles(&[0, 1, 2, 7, 8, 15, 16, 30, 31, 32, 2 * TOP - 1]),
        Kind::GetBitsSubexpU => [
            [0, 0, 3],
            [0, 1, 0],
            [1, 2, 0],
            [2, 5, 0],
            [5, 5, 3],
            [8, 16, 3],
            [15, 16, 1],
            [63, 127, 3],
            [0, 1000, 0],
            [999, 1000, 2],
            [4, 1000, 31],
            [4, 1000, 32],
            [4, 1000, -1],
            [1 << 30, TOP - 1, 29],
            [TOP - 2, TOP - 1, 3],
            [1, TOP, 3],
        ]
        .map(Vec::from)
        .to_vec(),
        Kind::GetBitsSubexp => [
            [0, 0],
            [0, 1],
            [1, 1],
            [-1, 2],
            [0, 5],
            [4, 5],
            [5, 5],
            [-5, 5],
            [-20, 64],
            [0, 1 << 30],
            [(1 << 30) - 1, 1 << 30],
            [0, (1 << 30) + 1],
            [TOP - 1, 9],
            [-TOP, TOP],
        ]
        .map(Vec::from)
        .to_vec(),
        _ => vec![vec![]],
    }
}

/// Widths and heights of layouts: one superblock, a few, the readings' and many.
const SIZES: [[i64; 2]; 6] = [
    [1, 1],
    [256, 128],
    [330, 64],
    [600, 700],
    [4160, 4672],
    [65_536, 65_536],
];

/// Every legal pair at some levels, both tiers, over a record full of old numbers.
fn layout_args(levels: &[i64], sizes: &[[i64; 2]]) -> Vec<Vec<i64>> {
    let mut list = Vec::new();
    for pair in PAIRS {
        for &level in levels {
            for tier in 0..2 {
                for &size in sizes {
                    let mut args = old_record();
                    args.extend(pair);
                    args.extend(size);
                    args.extend([level, tier]);
                    list.push(args);
                }
            }
        }
    }
    list
}

/// Most columns and rows, about those of the small layouts, and the panel's.
const LIMITS: [[i64; 2]; 4] = [[1, 2], [2, 1], [4, 2], [16, 8]];

/// Each row of arguments within each limit.
fn limited(args: Vec<Vec<i64>>, limits: &[[i64; 2]]) -> Vec<Vec<i64>> {
    let within = |args: &Vec<i64>, limit: &[i64; 2]| [&args[..], limit].concat();
    args.iter()
        .flat_map(|args| limits.iter().map(move |limit| within(args, limit)))
        .collect()
}

fn old_record() -> Vec<i64> {
    let mut row = vec![1, 5, 6, 6, 64, 4, 6, 6, 64];
    row.extend((9..TILE).map(|i| 7000 + i as i64));
    row
}

fn seg_args() -> Vec<Vec<i64>> {
    let zero = vec![0; SEG];
    let old: Vec<i64> = (0..16)
        .map(|i| 40 * i - 300)
        .chain([0x0F0F, 0xFFFF, 0x8001])
        .collect();
    [zero, old]
        .into_iter()
        .flat_map(|seg| [0, 1].map(|ext| seg.iter().copied().chain([ext]).collect()))
        .collect()
}

/// Frames of each type with a sequence layout of two even columns, in each code and each way of tiling. Old numbers stand behind
/// the layout's closing starts.
fn frame_args() -> Vec<Vec<i64>> {
    let mut list = Vec::new();
    for frame_type in 0..4 {
        for code in 0..3 {
            for present in 0..3 {
                let side = 64 << code;
                let mut args = vec![frame_type, 3 * side, side + 1, 7];
                args.extend(old_record());
                args.extend([code, 4 * side, 2 * side, 4, 1, present]);
                let mut layout = old_record();
                layout[..9].copy_from_slice(&[1, 0, 2, 1, 2, 0, 1, 0, 1]);
                layout[9..12].copy_from_slice(&[0, 2, 4]);
                layout[74..76].copy_from_slice(&[0, 2]);
                args.extend(layout);
                list.push(args);
            }
        }
    }
    list
}
