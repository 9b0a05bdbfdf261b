//! Old starts: records given, and sequences' layouts, with numbers behind the closing starts, at all places there or at one alone.
//! Layouts that are read, and layouts that are reused with either multiplier; within a limit; and each refusal over such a record.

use super::frames::frame_code;
use super::within::limited;
use crate::case::{Case, Outcome};
use crate::kind::Kind;
use crate::make::layouts::{PAIRS, STARTS, places_behind};
use crate::make::within::PANEL;
use crate::records::TILE;
use crate::rng::Rng;
use crate::rules::expected;
use crate::within::tiles;

/// Columns and rows, each a superblock: few, as many as the panel shows, one more, and as many as there may be.
const COUNTS: [[i64; 2]; 8] = [
    [1, 1],
    [3, 2],
    [16, 8],
    [17, 8],
    [63, 5],
    [2, 63],
    [64, 3],
    [2, 64],
];
/// Frame types and the sequence's codes: with multiplier 1 three times, and with 2.
const FRAMES: [[i64; 2]; 5] = [[1, 0], [0, 1], [3, 2], [0, 2], [2, 2]];

pub fn add(list: &mut Vec<Case>, seed: u64) {
    let mut rng = Rng::of_part(seed, 109, 0);
    let mut add = Adder {
        list,
        rng: &mut rng,
    };
    add.read();
    add.reused();
    add.refused();
    add.short();
}

/// Where numbers stand behind the closing starts.
#[derive(Clone, Copy)]
enum Old {
    Everywhere,
    /// At one place alone, the first or the last one behind the columns' closing start, or behind the rows'.
    Alone {
        rows: bool,
        last: bool,
    },
}

struct Adder<'a> {
    list: &'a mut Vec<Case>,
    rng: &'a mut Rng,
}

impl Adder<'_> {
    /// The case; a third of them also within the panel's limit, and within one that the layout just fits, or just doesn't.
    fn push(&mut self, case: Case) {
        if self.rng.below(3) == 0 {
            let mut outcome = Outcome::default();
            expected(&case, &mut outcome);
            let [cols, rows] = tiles(&outcome.record);
            let near = [[cols, rows], [cols - 1, rows], [cols, rows - 1]];
            let near = self.rng.pick(&near);
            self.list.push(limited(case.clone(), PANEL));
            self.list.push(limited(case.clone(), near));
        }
        self.list.push(case);
    }

    /// Everywhere, and alone at one of the four places.
    fn ways(&mut self) -> [Old; 2] {
        let [rows, last] = [self.rng.flag(), self.rng.flag()];
        [Old::Everywhere, Old::Alone { rows, last }]
    }

    /// Puts numbers behind the closing starts of a layout.
    fn put_old(&mut self, row: &mut [i64], layout: &[i64], old: Old) {
        let behind = places_behind(layout);
        match old {
            Old::Everywhere => behind
                .into_iter()
                .flatten()
                .for_each(|at| row[at] = self.rng.range(1, 99)),
            Old::Alone { rows, last } => {
                let mut places = behind[usize::from(rows)].clone();
                let place = if last {
                    places.next_back()
                } else {
                    places.next()
                };
                if let Some(at) = place {
                    row[at] = self.rng.range(1, 99);
                }
            }
        }
    }

    /// A record with numbers behind the closing starts of what is read over it; or of its own, where that is nothing.
    fn given(&mut self, read: Option<&[i64]>, old: Old) -> Vec<i64> {
        let mut row = vec![0; TILE];
        row[0] = self.rng.range(0, 1);
        row[1..9].fill_with(|| self.rng.range(1, 60));
        if let Old::Everywhere = old {
            row[9..].fill_with(|| self.rng.range(1, 99));
        }
        let layout = read.map_or_else(|| row.clone(), <[i64]>::to_vec);
        self.put_old(&mut row, &layout, old);
        row
    }

    /// A layout's reading over such records.
    fn layout(&mut self, b: [i64; 7], data: &[u8]) {
        let mut outcome = Outcome::default();
        for old in self.ways() {
            let mut case = Case {
                data: data.to_vec(),
                args: [&[0; TILE][..], &b].concat(),
                ..Case::of(Kind::ParseTileInfo)
            };
            expected(&case, &mut outcome);
            let read = Some(&outcome.record[..]).filter(|_| outcome.answer == 0);
            let given = self.given(read, old);
            case.args[..TILE].copy_from_slice(&given);
            self.push(case);
        }
    }

    /// Uniform layouts, told by ones, and others, told by zeros; some data is short.
    fn read(&mut self) {
        for pair in PAIRS {
            for counts in COUNTS {
                let side = 64 << pair[1];
                let [w, h] = counts.map(|n| n * side - self.rng.pick(&[0, 1]));
                let b = [pair[0], pair[1], pair[2], w, h, 14, 0];
                for byte in [0xFF, 0x00] {
                    let len = self.rng.pick(&[1, 3, 60]);
                    self.layout(b, &vec![byte; len]);
                }
            }
        }
    }

    /// A frame over such a record that reuses a sequence's layout of so many tiles, which has numbers behind its closing starts.
    fn frame(&mut self, [frame_type, code]: [i64; 2], counts: [i64; 2], uniform: i64, old: Old) {
        let sides = [frame_code(frame_type, code), code].map(|code| 64 << code);
        let [size, max] = sides.map(|side| counts.map(|n| n * side));
        let mut layout = vec![0; TILE];
        layout[..9].copy_from_slice(&[uniform, 0, 6, 0, counts[0], 2, 6, 0, counts[1]]);
        for ((first, _), count) in STARTS.into_iter().zip(counts) {
            for i in 0..=count {
                layout[first + i as usize] = i;
            }
        }
        let given = self.given(Some(&layout), old);
        let mut seq_layout = layout.clone();
        self.put_old(&mut seq_layout, &layout, old);
        let present = self.rng.range(1, 2);
        let mut args = vec![frame_type, size[0], size[1], 7];
        args.extend(given);
        args.extend([code, max[0], max[1], 14, 1, present]);
        args.extend(seq_layout);
        self.push(Case {
            data: vec![0xA5], // a one: reused where it is asked
            args,
            ..Case::of(Kind::ParseTileInfoFrmhdr)
        });
    }

    /// With either multiplier, uniform and not.
    fn reused(&mut self) {
        for frame in FRAMES {
            for counts in COUNTS {
                for uniform in 0..2 {
                    for old in self.ways() {
                        self.frame(frame, counts, uniform, old);
                    }
                }
            }
        }
    }

    /// 2 where columns or rows leave superblocks over, and 4.
    fn refused(&mut self) {
        const SEQ: usize = 4 + TILE;
        for [sbmul, code, seq_code] in PAIRS {
            let side = 64 << code;
            for (w, h, level) in [
                (66 * side, side, 0),
                (2 * side, 65 * side, 0),
                (side, 3 * side, 32),
                (side, 0, 0),
            ] {
                self.layout([sbmul, code, seq_code, w, h, level, 0], &[0; 60]);
            }
        }
        let start = self.list.len();
        for frame in FRAMES {
            self.frame(frame, [3, 2], 1, Old::Everywhere);
            self.frame(frame, [2, 3], 0, Old::Everywhere);
        }
        for (i, case) in self.list[start..].iter_mut().enumerate() {
            let a = &mut case.args;
            if i % 2 == 0 {
                a[SEQ + 3] = 32;
            } else {
                // No layout in the sequence, and 65 superblocks across.
                (a[0], a[1]) = (1, 65 * 128);
                (a[SEQ], a[SEQ + 5]) = (1, 0);
                case.data = vec![0; 60];
            }
        }
    }

    /// 5: a buffer is too short.
    fn short(&mut self) {
        let start = self.list.len();
        for _ in 0..3 {
            self.layout([1, 0, 0, 300, 200, 0, 0], &[0xFF]);
            self.layout([1, 0, 0, 300, 200, 0, 0], &[0x00]);
            self.frame([0, 2], [3, 2], 1, Old::Everywhere);
            self.frame([1, 0], [3, 2], 0, Old::Everywhere);
        }
        for (i, case) in self.list[start..].iter_mut().enumerate() {
            case.lent = case.kind.full_lengths().to_vec();
            let at = i % case.lent.len();
            case.lent[at] -= 1;
        }
    }
}
