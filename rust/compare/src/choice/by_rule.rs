//! What document 01 alone decides, or a request: added limits, the domain, short buffers, rectangles.

use crate::case::{Case, Outcome, Place};
use crate::kind::Kind;
use crate::make::layouts::{PAIRS, extent, layout_by_hand};
use crate::make::make;
use crate::records::TILE;
use crate::rng::Rng;
use crate::rules::expected;

const TOP: i64 = 1 << 31;
/// The most numbers that are lent for rectangles.
const ROOM: i64 = 400;

pub fn add(list: &mut Vec<Case>, seed: u64) {
    let mut rng = Rng::of_part(seed, 105, 0);
    let mut add = Adder {
        list,
        rng: &mut rng,
    };
    add.limits();
    add.layout_arguments();
    add.frame_arguments();
    add.short_buffers(&[
        Kind::ParseTileInfo,
        Kind::ParseSeqHdr,
        Kind::ParseTileInfoFrmhdr,
        Kind::ParseSegInfo,
        Kind::TileRectangles,
    ]);
    add.rectangles();
}

pub struct Adder<'a> {
    pub list: &'a mut Vec<Case>,
    pub rng: &'a mut Rng,
}

impl Adder<'_> {
    fn case(&mut self, kind: Kind, args: Vec<i64>) {
        let bytes = self.rng.range(0, 9) as usize;
        let data: Vec<u8> = (0..bytes).map(|_| self.rng.byte()).collect();
        let place = Place {
            error: self.rng.percent(10),
            ..Place::behind(self.rng.below(8 * bytes as u64 + 12) as usize)
        };
        self.list.push(Case {
            data,
            place,
            args,
            ..Case::of(kind)
        });
    }

    /// Arguments on both sides of the limits that document 01 adds.
    fn limits(&mut self) {
        for max in [
            TOP - 2,
            TOP - 1,
            TOP,
            TOP + 1,
            TOP + 5,
            3 << 30,
            2 * TOP - 2,
            2 * TOP - 1,
        ] {
            for _ in 0..4 {
                self.case(Kind::GetUniform, vec![max]);
                let def = self.rng.pick(&[0, 1, TOP - 1, max]);
                self.case(Kind::GetRefUniform, vec![max, def]);
            }
            for ref_val in [0, 1, max / 2, max - 1, max.min(2 * TOP - 2) + 1] {
                let k = self.rng.pick(&[-1, 0, 3, 31, 32]);
                self.case(Kind::GetBitsSubexpU, vec![ref_val, max, k]);
            }
        }
        let half = 1 << 30;
        for n in [
            half - 1,
            half,
            half + 1,
            half + 2,
            TOP - 1,
            TOP,
            TOP + 1,
            2 * TOP - 1,
        ] {
            for ref_val in [-half, -half - 1, -1, 0, 1, half - 1, half, TOP - 1, -TOP] {
                self.case(Kind::GetBitsSubexp, vec![ref_val, n]);
            }
        }
    }

    /// Each argument of a layout on both sides of its domain.
    fn layout_arguments(&mut self) {
        let good = [1, 0, 0, 300, 200, 5, 0];
        let mut rows: Vec<[i64; 7]> = Vec::new();
        for sbmul in [-TOP, -1, 0, 1, 2, 3, 257, TOP - 1] {
            for frame in [0, 1, 2, 3, 255] {
                for seq in [0, 1, 2, 3, 255] {
                    rows.push([sbmul, frame, seq, 300, 200, 5, 0]);
                }
            }
        }
        let sizes = [
            -TOP,
            -65_536,
            -1,
            0,
            1,
            2,
            65_535,
            65_536,
            65_537,
            131_072,
            TOP - 1,
        ];
        let bytes = [0, 1, 2, 30, 31, 32, 33, 64, 255];
        for at in 3..7 {
            for &value in if at < 5 { &sizes[..] } else { &bytes[..] } {
                for pair in PAIRS {
                    let mut row = good;
                    row[..3].copy_from_slice(&pair);
                    row[at] = value;
                    rows.push(row);
                }
            }
        }
        for row in rows {
            let mut args = vec![0; TILE];
            args[..9].copy_from_slice(&[1, 5, 6, 4, 3, 2, 6, 7, 8]);
            args[9..14].fill_with(|| self.rng.range(0, 300));
            args.extend(row);
            self.case(Kind::ParseTileInfo, args);
        }
    }

    /// A frame of 300 by 200 with a sequence that can be used.
    fn frame(&mut self, present: i64) -> Vec<i64> {
        let mut args = vec![self.rng.range(0, 3), 300, 200, self.rng.range(0, 255)];
        let mut given = vec![0; TILE];
        given[..9].copy_from_slice(&[1, 5, 6, 4, 3, 2, 6, 7, 8]);
        args.extend(given);
        args.extend([self.rng.range(0, 2), 300, 200, 5, 0, present]);
        let mut layout = Vec::new();
        layout_by_hand(self.rng, &mut layout);
        let (cols, rows) = (layout[4] as usize, layout[8] as usize);
        layout[10 + cols..74].fill(0);
        layout[75 + rows..].fill(0);
        args.extend(layout);
        args
    }

    /// Each argument of a frame, and each field that makes a sequence usable, on both sides of its domain.
    fn frame_arguments(&mut self) {
        const SEQ: usize = 4 + TILE;
        const T: usize = SEQ + 6;
        let sizes = [-TOP, -1, 0, 1, 65_535, 65_536, 65_537, TOP - 1];
        let fields: [(usize, &[i64]); 14] = [
            (0, &[0, 1, 2, 3, 4, 5, 255]),
            (1, &sizes),
            (2, &sizes),
            (SEQ, &[0, 1, 2, 3, 4, 255]),
            (SEQ + 1, &sizes),
            (SEQ + 2, &sizes),
            (SEQ + 3, &[0, 30, 31, 32, 33, 255]),
            (SEQ + 4, &[0, 1, 2, 3, 255]),
            (SEQ + 5, &[0, 1, 2, 3, 4, 255]),
            (T, &[0, 1]),
            (T + 4, &[0, 1, 63, 64, 65, 66, 255]),
            (T + 8, &[0, 1, 63, 64, 65, 66, 255]),
            (T + 3, &[0, 5, 6, 7, 8, 255]),
            (T + 7, &[0, 5, 6, 7, 8, 255]),
        ];
        for (at, values) in fields {
            for &value in values {
                for present in [0, 1, 2] {
                    let mut args = self.frame(present);
                    args[at] = value;
                    self.case(Kind::ParseTileInfoFrmhdr, args);
                }
            }
        }
        // A start, the closing one, and the one behind it, beside the largest.
        for (tiles, starts) in [(T + 4, T + 9), (T + 8, T + 74)] {
            for value in [1023, 1024, 1025, 2048, 65_535] {
                for which in 0..4 {
                    let mut args = self.frame(1 + which % 2);
                    let count = args[tiles];
                    let at = [0, count - 1, count, count + 1][which as usize].min(64);
                    args[starts + at as usize] = value;
                    self.case(Kind::ParseTileInfoFrmhdr, args);
                }
            }
        }
    }

    /// Each lent buffer of each function one too short, and each longer than it has to be.
    pub fn short_buffers(&mut self, kinds: &[Kind]) {
        for &kind in kinds {
            let full = kind.full_lengths();
            for at in 0..full.len() {
                for len in [0, 1, full[at] - 1, full[at] + 1] {
                    let mut lent = full.to_vec();
                    lent[at] = len;
                    let case = self.good_case(kind);
                    self.list.push(Case { lent, ..case });
                }
            }
            for _ in 0..3 {
                let lent = full.iter().map(|n| n + 2).collect();
                let case = self.good_case(kind);
                self.list.push(Case { lent, ..case });
            }
        }
    }

    /// A case that is accepted, from a place inside its data.
    fn good_case(&mut self, kind: Kind) -> Case {
        let mut case = Case::of(kind);
        let mut outcome = Outcome::default();
        if kind == Kind::TileRectangles {
            case.args = self.layout_and_buffer(0);
            return case;
        }
        loop {
            make(self.rng, &mut case, &mut outcome);
            expected(&case, &mut outcome);
            if outcome.answer == 0 && !case.is_past_end() && case.data.len() < 40 {
                return case;
            }
        }
    }

    /// A layout that rectangles can be told of, a code, a width and a height, and so many numbers more than they need.
    fn layout_and_buffer(&mut self, more: i64) -> Vec<i64> {
        loop {
            let mut args = Vec::new();
            layout_by_hand(self.rng, &mut args);
            let numbers = 4 * args[4] * args[8];
            if numbers + 9 <= ROOM {
                let (cols, rows) = (args[4] as usize, args[8] as usize);
                args[10 + cols..74].fill(0);
                args[75 + rows..].fill(0);
                let code = self.rng.range(0, 2);
                let w = extent(self.rng, &args[9..=9 + cols], code);
                let h = extent(self.rng, &args[74..=74 + rows], code);
                let first = self.rng.range(0, 100_000);
                args.extend([code, w, h, (numbers + more).max(0), first]);
                return args;
            }
        }
    }

    fn rectangles(&mut self) {
        for more in [-400, -100, -4, -3, -2, -1, 0, 0, 0, 1, 2, 5] {
            for _ in 0..8 {
                let args = self.layout_and_buffer(more);
                self.case(Kind::TileRectangles, args);
            }
        }
        // 63, 64 and 65 columns or rows beside one.
        for (many, one) in [(4, 8), (8, 4)] {
            for tiles in [0, 1, 63, 64, 65, 255] {
                for code in [0, 1, 2, 3, 255] {
                    let mut args = vec![0; TILE];
                    args[many] = tiles;
                    args[one] = 1;
                    for i in 0..65 {
                        args[9 + i] = 15 * i as i64;
                        args[74 + i] = 16 * i as i64;
                    }
                    args.extend([code, 65_536, 65_536, 256, 5]);
                    self.case(Kind::TileRectangles, args);
                }
            }
        }
        // A start that is too large, or below the one before it; one behind the closing one, which doesn't count.
        for (tiles, starts) in [(4, 9), (8, 74)] {
            for value in [1023, 1024, 1025, 65_535] {
                for which in 0..4 {
                    let mut args = self.layout_and_buffer(0);
                    let count = args[tiles];
                    let at = [0, count - 1, count, count + 1][which as usize].min(64);
                    args[starts + at as usize] = value;
                    self.case(Kind::TileRectangles, args);
                }
            }
            for _ in 0..12 {
                let mut args = self.layout_and_buffer(0);
                let at = starts + self.rng.range(1, args[tiles]) as usize;
                args[at] = (args[at - 1] + self.rng.range(-1, 1)).max(0);
                self.case(Kind::TileRectangles, args);
            }
        }
        // The largest closing entry, and one more. These cases draw no random numbers, so that those behind them stay.
        for starts in [9, 74] {
            for closing in [1024, 1025] {
                for code in 0..3 {
                    let mut args = vec![0; TILE];
                    (args[4], args[8]) = (2, 2);
                    args[10..12].copy_from_slice(&[3, 8]);
                    args[75..77].copy_from_slice(&[2, 9]);
                    args[starts + 2] = closing;
                    args.extend([code, 65_536, 65_536, 17, 5]);
                    self.list.push(Case {
                        args,
                        ..Case::of(Kind::TileRectangles)
                    });
                }
            }
        }
        for (cols, rows) in [(0, 0), (0, 1), (1, 0), (65, 65), (64, 0), (255, 255)] {
            let mut args = self.layout_and_buffer(0);
            (args[4], args[8]) = (cols, rows);
            self.case(Kind::TileRectangles, args);
        }
        self.cut_rectangles();
    }

    /// A width and a height on both sides of their domain, before a short buffer too, and about each edge of the layout with the
    /// starts 0 2 3 4 6: 330 wide, its last column begins at 256, and 128 wide, its last three columns are empty. Then starts that
    /// fall, behind the edge or before it.
    fn cut_rectangles(&mut self) {
        for size in [TILE + 1, TILE + 2] {
            for value in [-TOP, -1, 0, 1, 2, 65_535, 65_536, 65_537, TOP - 1] {
                for more in [0, -1] {
                    let mut args = self.layout_and_buffer(more);
                    args[size] = value;
                    self.case(Kind::TileRectangles, args);
                }
            }
            for value in [
                1, 64, 127, 128, 129, 191, 192, 193, 255, 256, 257, 330, 383, 384, 385,
            ] {
                let mut args = four_by_four([0, 2, 3, 4, 6]);
                args[size] = value;
                self.case(Kind::TileRectangles, args);
            }
            for value in [128, 192, 193, 257] {
                let mut args = four_by_four([0, 2, 4, 3, 6]);
                args[size] = value;
                self.case(Kind::TileRectangles, args);
            }
        }
    }
}

/// Four columns and four rows with these starts, in a frame of 384 by 384 samples, and a number more than they need.
fn four_by_four(starts: [i64; 5]) -> Vec<i64> {
    let mut args = vec![0; TILE];
    (args[4], args[8]) = (4, 4);
    args[9..14].copy_from_slice(&starts);
    args[74..79].copy_from_slice(&starts);
    args.extend([0, 384, 384, 65, 7]);
    args
}
