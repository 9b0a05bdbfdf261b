//! Layouts: sizes beside whole superblocks, widths and areas beside their limits at each level, 64 and 65 tiles.

use crate::bits::BitWriter;
use crate::case::{Case, Place};
use crate::kind::Kind;
use crate::make::layouts::PAIRS;
use crate::records::TILE;
use crate::rng::Rng;

/// Levels on both sides of the two at which limits grow.
const LEVELS: [i64; 8] = [0, 13, 14, 15, 17, 18, 19, 31];
const LARGEST: i64 = 65_536;

pub fn add(list: &mut Vec<Case>, seed: u64) {
    let mut rng = Rng::of_part(seed, 102, 0);
    let mut add = Adder {
        list,
        rng: &mut rng,
    };
    add.full_counts();
    add.counts_of_tiles();
    add.widths();
    add.areas();
    add.many_tiles();
    add.row_limits();
    add.single_sizes();
    add.random();
}

/// Both limits in superblocks of a size: the width and the area.
fn limits(code: i64, level: i64, tier: i64) -> (i64, i64) {
    let (a, b) = (i64::from(level >= 14), i64::from(level >= 18));
    let c = a * tier;
    let side = 64 << code;
    (
        (4096 << (b + c)) / side,
        (9_437_184 << (a + b + c)) / (side * side),
    )
}

pub struct Adder<'a> {
    pub list: &'a mut Vec<Case>,
    pub rng: &'a mut Rng,
}

impl Adder<'_> {
    /// A record given: mostly with old numbers, sometimes behind the last start too.
    fn given(&mut self) -> Vec<i64> {
        let mut row = vec![0; TILE];
        let way = self.rng.below(40);
        if way < 30 {
            row[0] = self.rng.range(0, 1);
            for number in &mut row[1..9] {
                *number = self.rng.range(0, 70);
            }
        }
        if way == 0 {
            row[9..].fill_with(|| self.rng.range(0, 65_535));
        }
        if way < 4 {
            for _ in 0..4 {
                row[9 + self.rng.below(8) as usize] = self.rng.range(1, 2000);
                row[74 + self.rng.below(8) as usize] = self.rng.range(1, 2000);
            }
        }
        row
    }

    pub fn case(&mut self, pair: [i64; 3], size: [i64; 2], level: [i64; 2], bits: BitWriter) {
        if size.iter().any(|n| !(1..=LARGEST).contains(n)) {
            return;
        }
        let mut args = self.given();
        args.extend(pair);
        args.extend(size);
        args.extend(level);
        let before = if self.rng.percent(20) {
            self.rng.below(20) as usize
        } else {
            0
        };
        let mut data = BitWriter::default();
        data.bits(self.rng.number(), before as u32);
        data.append(&bits);
        self.list.push(Case {
            data: data.into_bytes(),
            place: Place {
                error: self.rng.percent(3),
                ..Place::behind(before)
            },
            args,
            ..Case::of(Kind::ParseTileInfo)
        });
    }

    /// Uniform: so many steps for the columns, and for the rows, if the logarithms can grow so far.
    pub fn uniform(&mut self, cols: u64, rows: u64) -> BitWriter {
        let mut bits = BitWriter::default();
        bits.bit(true);
        bits.bits(u64::MAX, cols as u32);
        bits.bit(false);
        bits.bits(u64::MAX, rows as u32);
        bits.bit(false);
        bits.bits(self.rng.number(), 6);
        bits
    }

    /// Not uniform: sizes told by ones, by zeros, or by any bits.
    pub fn told(&mut self, way: u64, len: u32) -> BitWriter {
        let mut bits = BitWriter::default();
        bits.bit(false);
        for _ in 0..len {
            bits.bit(match way {
                0 => false,
                1 => true,
                2 => self.rng.percent(85),
                3 => self.rng.percent(15),
                _ => self.rng.flag(),
            });
        }
        bits
    }

    pub fn level(&mut self) -> [i64; 2] {
        [self.rng.pick(&LEVELS), self.rng.range(0, 1)]
    }

    /// Sizes of which the last superblock counts as full from seven samples less on.
    fn full_counts(&mut self) {
        for pair in PAIRS {
            let side = 64 << pair[2];
            let near: Vec<i64> = [1, 2, 3, 4, 5, 6, 7, 8, 9, 11, 13, 16]
                .iter()
                .flat_map(|k| [-9, -8, -7, -6, -1, 0, 1, 2].map(|d| k * side + d))
                .collect();
            for i in 0..near.len() {
                for way in 0..3 {
                    let other = near[self.rng.below(near.len() as u64) as usize];
                    let size = if way == 1 {
                        [other, near[i]]
                    } else {
                        [near[i], other]
                    };
                    let (cols, rows) = (self.rng.below(5), self.rng.below(5));
                    let bits = self.uniform(cols, rows);
                    let level = self.level();
                    self.case(pair, size, level, bits);
                }
            }
        }
    }

    /// Superblocks beside a power of two, where the largest logarithm changes.
    fn counts_of_tiles(&mut self) {
        for pair in PAIRS {
            let side = 64 << pair[1];
            for k in [
                1, 2, 3, 4, 5, 7, 8, 9, 15, 16, 17, 31, 32, 33, 63, 64, 65, 66, 127, 128, 129,
            ] {
                for way in 0..4 {
                    let edge = k * side + self.rng.pick(&[-1, 0, 0, 1]);
                    let other = side * self.rng.range(1, 20) + self.rng.range(-8, 1);
                    let size = if way % 2 == 0 {
                        [edge, other]
                    } else {
                        [other, edge]
                    };
                    let bits = if way < 2 {
                        self.uniform(8, 8)
                    } else {
                        let way = self.rng.below(5);
                        self.told(way, 90)
                    };
                    let level = self.level();
                    self.case(pair, size, level, bits);
                }
            }
        }
    }

    /// Widths beside the limit and its doubles.
    fn widths(&mut self) {
        for pair in PAIRS {
            for level in LEVELS {
                for tier in 0..2 {
                    let side = 64 << pair[1];
                    let (limit, _) = limits(pair[1], level, tier);
                    for k in 0..4 {
                        for d in [-side, 0, 1, side + 1] {
                            let size = [(limit << k) * side + d, side * self.rng.range(1, 9)];
                            let bits = if self.rng.percent(70) {
                                let (cols, rows) = (self.rng.below(3), self.rng.below(3));
                                self.uniform(cols, rows)
                            } else {
                                self.told(1, 90)
                            };
                            self.case(pair, size, [level, tier], bits);
                        }
                    }
                }
            }
        }
    }

    /// Areas at the limit and its doubles, just above them and just below.
    fn areas(&mut self) {
        for pair in PAIRS {
            for (level, tier) in [
                (0, 0),
                (13, 1),
                (14, 0),
                (14, 1),
                (15, 1),
                (17, 0),
                (17, 1),
                (18, 0),
                (18, 1),
                (19, 1),
            ] {
                let side = 64 << pair[1];
                let (_, limit) = limits(pair[1], level, tier);
                for k in 0..4 {
                    let at = limit << k;
                    let step = 1 << k;
                    for (low, high, wanted) in [
                        (at, at, 3),
                        (at + 1, at + step, 3),
                        (at - step + 1, at - 1, 2),
                        (at + step + 1, at + at / 16, 1),
                    ] {
                        for _ in 0..wanted {
                            if let Some([across, down]) = self.product(low, high, LARGEST / side) {
                                let less = self.rng.pick(&[0, 0, side - 1]);
                                let size = [across * side - less, down * side];
                                let bits = if self.rng.percent(75) {
                                    let (cols, rows) = (self.rng.below(2), self.rng.below(2));
                                    self.uniform(cols, rows)
                                } else {
                                    let way = self.rng.range(1, 2) as u64;
                                    self.told(way, 400)
                                };
                                self.case(pair, size, [level, tier], bits);
                            }
                        }
                    }
                }
            }
        }
    }

    /// Two factors of a number in a range, each at most `most`.
    fn product(&mut self, low: i64, high: i64, most: i64) -> Option<[i64; 2]> {
        for _ in 0..3000 {
            if low > high {
                return None;
            }
            let number = self.rng.range(low, high);
            let across = self.rng.range(1, most);
            if number % across == 0 && number / across <= most {
                return Some([across, number / across]);
            }
        }
        None
    }

    /// 63 to 66 columns or rows of one superblock.
    fn many_tiles(&mut self) {
        for pair in PAIRS {
            let side = 64 << pair[1];
            for tiles in [62, 63, 64, 65, 66, 80] {
                for other in [1, 2, 64] {
                    for way in 0..4 {
                        let edge = tiles * side - self.rng.pick(&[0, 1, side - 1]);
                        let size = if way % 2 == 0 {
                            [edge, other * side]
                        } else {
                            [other * side, edge]
                        };
                        let len = self.rng.pick(&[0, 40, 400, 500]);
                        let bits = self.told(way / 2 * 3, len);
                        let level = self.level();
                        self.case(pair, size, level, bits);
                    }
                }
            }
        }
    }

    /// Wide tiles in a large frame, so that few rows fit the area; one column is the widest.
    fn row_limits(&mut self) {
        for pair in PAIRS {
            let side = 64 << pair[1];
            for i in 0..130 {
                let level = self.level();
                let (limit, _) = limits(pair[1], level[0], level[1]);
                let across = limit + self.rng.range(1, limit + 40);
                let down = match i % 3 {
                    0 => self.rng.range(2, 6),
                    1 => self.rng.range(2, 40),
                    _ => self.rng.range(2, LARGEST / side),
                };
                let size = [across * side, down * side - self.rng.range(0, 3)];
                let way = self.rng.pick(&[1, 1, 2, 2, 4]);
                let bits = self.told(way, 500);
                self.case(pair, size, level, bits);
            }
        }
    }

    /// Few superblocks: each size told.
    fn single_sizes(&mut self) {
        for pair in PAIRS {
            let side = 64 << pair[1];
            for across in 1..=9 {
                for _ in 0..5 {
                    let size = [
                        across * side - self.rng.pick(&[0, 1, side - 1]),
                        self.rng.range(1, 9) * side - self.rng.pick(&[0, 1, side - 1]),
                    ];
                    let bits = if self.rng.percent(70) {
                        let way = self.rng.range(1, 5) as u64;
                        let len = self.rng.pick(&[3, 12, 50]);
                        self.told(way, len)
                    } else {
                        let (cols, rows) = (self.rng.below(5), self.rng.below(5));
                        self.uniform(cols, rows)
                    };
                    let level = self.level();
                    self.case(pair, size, level, bits);
                }
            }
        }
    }

    /// As the comparison makes them.
    fn random(&mut self) {
        super::made(self.list, self.rng, Kind::ParseTileInfo, 150);
    }
}
