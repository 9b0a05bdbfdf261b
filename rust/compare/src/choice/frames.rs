//! Frames: the reuse test at equality and beside it, doubled starts, and fresh layouts by the sequence's codes.

use crate::bits::BitWriter;
use crate::case::{Case, Place};
use crate::kind::Kind;
use crate::make::layouts::layout_by_hand;
use crate::records::TILE;
use crate::rng::Rng;

const LARGEST: i64 = 65_536;

pub fn add(list: &mut Vec<Case>, seed: u64) {
    let mut rng = Rng::of_part(seed, 104, 0);
    let mut add = Adder {
        list,
        rng: &mut rng,
    };
    add.even_tiles();
    add.same_sizes();
    add.fresh();
    super::made(add.list, add.rng, Kind::ParseTileInfoFrmhdr, 150);
}

/// The code of a frame's superblocks: key and intra frames have at most 1.
pub fn frame_code(frame_type: i64, code: i64) -> i64 {
    if frame_type % 2 == 1 {
        code
    } else {
        code.min(1)
    }
}

/// A sequence that a frame may take its layout from.
pub struct Sequence {
    code: i64,
    size: [i64; 2],
    pub level: [i64; 2],
    pub present: i64,
    layout: Vec<i64>,
}

pub struct Adder<'a> {
    pub list: &'a mut Vec<Case>,
    pub rng: &'a mut Rng,
}

impl Adder<'_> {
    pub fn case(&mut self, frame_type: i64, size: [i64; 2], seq: Sequence) {
        if size
            .iter()
            .chain(&seq.size)
            .any(|n| !(1..=LARGEST).contains(n))
        {
            return;
        }
        let mut args = vec![frame_type, size[0], size[1], self.rng.range(0, 3)];
        let mut given = vec![0; TILE];
        for number in &mut given[1..9] {
            *number = self.rng.range(0, 9);
        }
        if self.rng.percent(4) {
            given[9..].fill_with(|| self.rng.range(0, 65_535));
        }
        args.extend(given);
        args.push(seq.code);
        args.extend(seq.size);
        args.extend(seq.level);
        args.push(seq.present);
        args.extend(seq.layout);
        let before = self.rng.below(9) as usize;
        let mut bits = BitWriter::default();
        bits.bits(self.rng.number(), before as u32);
        let len = self.rng.pick(&[0, 1, 2, 9, 30, 60]);
        for _ in 0..len {
            bits.bit(self.rng.percent(60));
        }
        self.list.push(Case {
            data: bits.into_bytes(),
            place: Place {
                error: self.rng.percent(3),
                ..Place::behind(before)
            },
            args,
            ..Case::of(Kind::ParseTileInfoFrmhdr)
        });
    }

    /// A layout made by hand with these logarithms; few starts behind it.
    pub fn layout(&mut self, uniform: i64, logs: [i64; 2]) -> Vec<i64> {
        let mut row = Vec::new();
        layout_by_hand(self.rng, &mut row);
        row[0] = uniform;
        row[3] = logs[0];
        row[7] = logs[1];
        let (cols, rows) = (row[4] as usize, row[8] as usize);
        if self.rng.percent(85) {
            row[9 + cols + 1..74].fill(0);
            row[74 + rows + 1..].fill(0);
        }
        // Small starts take one byte; those up to 1,024 stay in some.
        if self.rng.percent(70) {
            row[9..].iter_mut().for_each(|start| *start /= 9);
        }
        row
    }

    pub fn sequence(&mut self, code: i64, size: [i64; 2], layout: Vec<i64>) -> Sequence {
        Sequence {
            code,
            size,
            level: [
                self.rng.pick(&[0, 13, 14, 17, 18, 31]),
                self.rng.range(0, 1),
            ],
            present: self.rng.pick(&[0, 1, 1, 1, 2, 2]),
            layout,
        }
    }

    /// Uniform: `m` times all tiles but one are the superblocks, one more, and one less.
    fn even_tiles(&mut self) {
        for log2 in 0..=6 {
            for m in 1..=4 {
                for d in -1..=1 {
                    for way in 0..4 {
                        let code = self.rng.range(0, 2);
                        let frame_type = self.rng.range(0, 3);
                        let side = 64 << frame_code(frame_type, code);
                        let edge =
                            (m * ((1 << log2) - 1) + d) * side - self.rng.pick(&[0, 1, side - 1]);
                        let other_log2 = self.rng.range(0, 2);
                        let other = side * self.rng.range(1, 16);
                        let (size, logs) = if way % 2 == 0 {
                            ([edge, other], [log2, other_log2])
                        } else {
                            ([other, edge], [other_log2, log2])
                        };
                        let layout = self.layout(1, logs);
                        let max = [self.rng.range(1, LARGEST), self.rng.range(1, LARGEST)];
                        let seq = self.sequence(code, max, layout);
                        self.case(frame_type, size, seq);
                    }
                }
            }
        }
    }

    /// Not uniform: the sequence's superblocks across and down are the frame's, or one of them isn't.
    fn same_sizes(&mut self) {
        for i in 0..300 {
            let code = i % 3;
            let frame_type = self.rng.range(0, 3);
            let side = 64 << frame_code(frame_type, code);
            let seq_side = 64 << code;
            let counts = [self.rng.range(1, 20), self.rng.range(1, 20)];
            let max = counts.map(|n| n * seq_side - self.rng.pick(&[0, 1, seq_side - 1]));
            let mut size = counts.map(|n| n * side - self.rng.pick(&[0, 1, side - 1]));
            match i % 5 {
                0 => size[0] += self.rng.pick(&[1, side, -side]),
                1 => size[1] += self.rng.pick(&[1, side, -side]),
                _ => {}
            }
            let logs = [self.rng.range(0, 6), self.rng.range(0, 6)];
            let layout = self.layout(0, logs);
            let seq = self.sequence(code, max, layout);
            self.case(frame_type, size, seq);
        }
    }

    /// A layout of the frame's own: no layout in the sequence, or one that can't be taken.
    fn fresh(&mut self) {
        for i in 0..200 {
            let code = i % 3;
            let frame_type = i / 3 % 4;
            let side = 64 << code;
            let mut near =
                |most| side * self.rng.range(1, most) + self.rng.pick(&[-8, -7, -1, 0, 1]);
            let size = [near(40), near(12)];
            let layout = self.layout(1, [6, 6]);
            let mut seq = self.sequence(code, size, layout);
            seq.present = self.rng.pick(&[0, 0, 2]);
            self.case(frame_type, size, seq);
        }
    }
}
