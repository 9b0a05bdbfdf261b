//! Film grain parameters, written field by field: each field's boundary values while the others vary, lists that are
//! refused, data that ends early, and what the rules of the buffer and of the layout decide.

use super::by_rule;
use crate::bits::BitWriter;
use crate::case::{Case, Place};
use crate::kind::Kind;
use crate::make::grain::{I400, PLANES, wished};
use crate::rng::Rng;

const KIND: Kind = Kind::ParseFilmGrainData;

/// Values of a field, each in each layout.
type Boundary = (&'static str, &'static [u64]);

const BOUNDARIES: [Boundary; 7] = [
    ("shift", &[0, 1, 2, 3]),
    ("ar_shift", &[0, 1, 2, 3]),
    ("scale", &[0, 1, 2, 3]),
    ("mult", &[0, 1, 127, 128, 129, 255]),
    ("luma_mult", &[0, 1, 127, 128, 129, 255]),
    ("offset", &[0, 1, 255, 256, 257, 511]),
    ("value", &[0, 1, 31, 127, 128, 255]),
];

/// Few points and no lag: short parameters.
const SMALL: [(&str, u64); 4] = [("lag", 0), ("y", 1), ("u", 1), ("v", 2)];

pub fn add(list: &mut Vec<Case>, seed: u64) {
    let mut rng = Rng::of_part(seed, 107, 0);
    let mut add = Adder {
        list,
        rng: &mut rng,
    };
    add.smallest();
    add.counts();
    add.positions();
    add.empty_lists();
    add.coefficients();
    add.boundaries();
    add.flags();
    add.errors();
    add.cut();
    super::made(list, &mut rng, KIND, 60);
    layouts(list, &mut rng);
    let start = list.len();
    for _ in 0..4 {
        by_rule::Adder {
            list,
            rng: &mut rng,
        }
        .short_buffers(&[KIND]);
    }
    // The buffer is asked before the layout.
    for case in list[start..].iter_mut().step_by(2) {
        case.args[0] = rng.pick(&[4, 255]);
    }
}

struct Adder<'a> {
    list: &'a mut Vec<Case>,
    rng: &'a mut Rng,
}

impl Adder<'_> {
    /// Parameters in which some fields have a value, the first of each name.
    fn grain(&mut self, layout: i64, wishes: &[&[(&str, u64)]]) {
        let data = wished(self.rng, layout, &wishes.concat());
        let before = if self.rng.percent(15) {
            self.rng.below(20) as usize
        } else {
            0
        };
        let mut bits = BitWriter::default();
        bits.bits(self.rng.number(), before as u32);
        bits.append(&BitWriter::of(&data));
        self.case(layout, bits.into_bytes(), Place::behind(before));
    }

    fn case(&mut self, layout: i64, data: Vec<u8>, place: Place) {
        self.list.push(Case {
            data,
            place,
            args: vec![layout],
            ..Case::of(KIND)
        });
    }

    /// The smallest parameters that are accepted and refused, in each layout, and the same behind an error.
    fn smallest(&mut self) {
        const SMALLEST: [&[u8]; 14] = [
            &[],
            &[0x00],
            &[0x00, 0x00],
            &[0x00, 0x00, 0x00],
            &[0x80, 0x00, 0x00],
            &[0x88, 0x00, 0x00, 0x00, 0x00, 0x00],
            &[0x20, 0x42, 0x10, 0x00, 0x00],
            &[0xF0],
            &[0x78, 0x00],
            &[0x2E, 0x7F, 0x80, 0x04],
            &[0x00, 0x80, 0x00],
            &[0x00, 0x08, 0x00],
            &[0x00, 0x80, 0x00, 0x00, 0x00, 0x00, 0x00, 0x00],
            &[0x00, 0x08, 0x00, 0x00, 0x00, 0x00, 0x00, 0x00],
        ];
        for data in SMALLEST {
            for layout in 0..4 {
                for error in [false, true] {
                    let place = Place {
                        error,
                        ..Place::default()
                    };
                    self.case(layout, data.to_vec(), place);
                }
            }
        }
    }

    /// So many points in each list.
    fn counts(&mut self) {
        for layout in 0..4 {
            let planes = if layout == I400 { 1 } else { 3 };
            for name in &PLANES[..planes] {
                for count in [0, 1, 2, 7, 13, 14, 15] {
                    self.grain(layout, &[&[(name, count), ("from_luma", 0)], &SMALL]);
                }
            }
            for count in [0, 1, 8, 14, 15] {
                self.grain(layout, &[&[("from_luma", 1), ("y", count)], &SMALL]);
            }
        }
    }

    /// The last position on both sides of 255, in each list; steps and values of each width.
    fn positions(&mut self) {
        for last in [0, 1, 128, 253, 254, 255, 256, 257, 300] {
            for (pl, name) in PLANES.iter().enumerate() {
                let layout = if pl == 0 {
                    self.rng.range(0, 3)
                } else {
                    self.rng.range(1, 3)
                };
                let count = self.rng.range(2, 5) as u64;
                self.grain(
                    layout,
                    &[
                        &[(name, count), ("from_luma", 0), ("index", 7)],
                        &[("last", last)],
                        &SMALL,
                    ],
                );
            }
        }
        for index in 0..8 {
            for scaling in 0..4 {
                let layout = self.rng.range(0, 3);
                let count = self.rng.range(1, 6) as u64;
                let widths = [("index", index), ("scaling", scaling), ("y", count)];
                self.grain(layout, &[&widths, &SMALL]);
            }
        }
    }

    /// Each choice of lists that are empty, in each layout, without a lag and with one.
    fn empty_lists(&mut self) {
        for layout in 0..4 {
            for lag in 0..2 {
                for lists in 0..8 {
                    let counts = [("y", lists & 1), ("u", lists & 2), ("v", lists / 4)];
                    self.grain(layout, &[&[("lag", lag), ("from_luma", 0)], &counts]);
                }
                for y in 0..2 {
                    self.grain(layout, &[&[("lag", lag), ("from_luma", 1), ("y", y)]]);
                }
            }
        }
    }

    /// Each lag with each width, the least coefficients, the greatest, those beside 0, and any.
    fn coefficients(&mut self) {
        for lag in 0..4 {
            for width in 0..4 {
                let half = 1 << (4 + width);
                let values = [0, u64::MAX, half, half - 1];
                let sent = [("lag", lag), ("width", width)];
                for from_luma in 0..2 {
                    let layout = self.rng.range(0, 3);
                    let y = self.rng.below(2);
                    let of = [("from_luma", from_luma), ("y", y)];
                    let coeff = [("coeff", self.rng.pick(&values))];
                    self.grain(layout, &[&sent, &of, &coeff, &SMALL]);
                    self.grain(layout, &[&sent, &of, &SMALL]);
                }
            }
        }
    }

    fn boundaries(&mut self) {
        for (name, values) in BOUNDARIES {
            for &value in values {
                for layout in 0..4 {
                    self.grain(layout, &[&[(name, value), ("from_luma", 0)], &SMALL]);
                }
            }
        }
    }

    /// Each choice of the last flags.
    fn flags(&mut self) {
        for flags in 0..16 {
            let wishes = [
                ("overlap", flags & 1),
                ("clip", flags & 2),
                ("identity", flags & 4),
                ("block", flags & 8),
            ];
            let layout = self.rng.range(0, 3);
            self.grain(layout, &[&wishes, &SMALL]);
        }
    }

    /// Accepted and refused ones behind an error.
    fn errors(&mut self) {
        for i in 0..24 {
            let layout = i % 4;
            let wishes: [&[(&str, u64)]; 2] = match i / 8 {
                0 => [&[("y", 15)], &SMALL],
                1 => [&[("last", 256), ("index", 7), ("y", 2)], &SMALL],
                _ => [&[], &SMALL],
            };
            self.grain(layout, &wishes);
            self.list.last_mut().unwrap().place.error = true;
        }
    }

    /// Parameters that end a few bits before their last one, or anywhere.
    fn cut(&mut self) {
        for i in 0..80 {
            let layout = i % 4;
            let data = wished(self.rng, layout, if i % 5 == 0 { &[] } else { &SMALL });
            let whole = Case {
                data,
                args: vec![layout],
                ..Case::of(KIND)
            };
            self.list.push(super::cut(self.rng, &whole, i % 3 == 0));
        }
    }
}

/// Numbers that are no layout, from places inside the data and past it.
fn layouts(list: &mut Vec<Case>, rng: &mut Rng) {
    for layout in [4, 5, 6, 7, 8, 16, 127, 128, 129, 131, 132, 252, 254, 255] {
        for _ in 0..2 {
            let bytes = rng.range(0, 9) as usize;
            list.push(Case {
                data: (0..bytes).map(|_| rng.byte()).collect(),
                place: Place {
                    error: rng.percent(20),
                    ..Place::behind(rng.below(8 * bytes as u64 + 12) as usize)
                },
                args: vec![layout],
                ..Case::of(KIND)
            });
        }
    }
}
