//! Headers, written field by field: each field's boundary values while all others vary, and data that ends early.

use crate::bits::BitWriter;
use crate::case::{Case, Place};
use crate::kind::Kind;
use crate::make::header::wished;
use crate::rng::Rng;

/// Values of a field, each in so many headers.
type Boundary = (&'static str, &'static [u64], usize);

const BOUNDARIES: [Boundary; 28] = [
    (
        "id",
        &[
            0,
            1,
            2,
            127,
            128,
            254,
            255,
            256,
            257,
            511,
            512,
            65_791,
            4_294_967_294,
        ],
        2,
    ),
    (
        "profile",
        &[
            0, 1, 2, 3, 4, 5, 6, 7, 8, 9, 10, 11, 12, 13, 14, 15, 16, 17, 23, 24, 29, 30, 31,
        ],
        3,
    ),
    (
        "level",
        &[0, 1, 2, 3, 4, 5, 7, 8, 13, 14, 15, 16, 17, 18, 19, 30, 31],
        6,
    ),
    (
        "layout",
        &[
            0, 1, 2, 3, 4, 5, 7, 8, 255, 256, 257, 258, 259, 260, 512, 65_536, 65_539,
        ],
        4,
    ),
    (
        "depth",
        &[
            0, 1, 2, 3, 4, 5, 253, 254, 255, 256, 257, 258, 259, 260, 512, 514, 515, 65_536,
            65_538, 65_539,
        ],
        4,
    ),
    ("width_bits", &[0, 1, 7, 8, 14, 15], 4),
    ("height_bits", &[0, 1, 7, 8, 14, 15], 4),
    ("width", &[0, 1, 0xFFFF], 5),
    ("height", &[0, 1, 0xFFFF], 5),
    (
        "delta",
        &[
            0x000, 0x15E, 0x15F, 0x160, 0x1FF, 0x200, 0x2A0, 0x2A1, 0x2A2, 0x3FF,
        ],
        3,
    ),
    ("filter", &[0, 1, 2, 3], 4),
    ("modes", &[0, 1, 2, 4, 8, 15], 4),
    ("order", &[0, 7, 15], 3),
    ("long_term", &[0, 7], 3),
    ("drl", &[0, 1, 2, 3, 4], 4),
    ("bvp", &[0, 1, 2], 4),
    ("same", &[0, 1, 2, 3], 3),
    ("refined", &[0, 1, 2, 3], 4),
    ("ydc", &[0, 1, 15, 22, 23, 24, 31], 4),
    ("uvdc", &[0, 1, 15, 22, 23, 24, 31], 4),
    ("uvac", &[0, 1, 15, 22, 23, 24, 31], 4),
    ("bits", &[0, 1, 2, 3], 3),
    (
        "left",
        &[0, 1, 255, 256, 65_536, 2_147_483_648, 4_294_967_294],
        2,
    ),
    (
        "right",
        &[0, 1, 255, 256, 65_536, 2_147_483_648, 4_294_967_294],
        2,
    ),
    (
        "top",
        &[0, 1, 255, 256, 65_536, 2_147_483_648, 4_294_967_294],
        2,
    ),
    (
        "bottom",
        &[0, 1, 255, 256, 65_536, 2_147_483_648, 4_294_967_294],
        2,
    ),
    ("trailing", &[0, 1], 12),
    ("tip", &[0, 1], 8),
];

/// What a field needs before it.
const NEEDS: [(&str, &[(&str, u64)]); 14] = [
    ("filter", &[("layout", 0)]),
    ("modes", &[("reduced", 0)]),
    ("order", &[("reduced", 0)]),
    ("long_term", &[("reduced", 0)]),
    ("drl", &[("reduced", 0)]),
    ("same", &[("reduced", 0)]),
    ("refined", &[("reduced", 0), ("tip", 1)]),
    ("ydc", &[("equal", 0)]),
    ("uvdc", &[("equal", 0), ("layout", 0)]),
    ("uvac", &[("layout", 2)]),
    ("left", &[("crop", 1)]),
    ("right", &[("crop", 1)]),
    ("top", &[("crop", 1)]),
    ("bottom", &[("crop", 1)]),
];

pub fn add(list: &mut Vec<Case>, seed: u64) {
    let mut rng = Rng::of_part(seed, 103, 0);
    let mut add = Adder {
        list,
        rng: &mut rng,
    };
    add.boundaries();
    add.references();
    add.layers();
    add.levels_with_layouts();
    add.random();
    add.cut();
}

struct Adder<'a> {
    list: &'a mut Vec<Case>,
    rng: &'a mut Rng,
}

impl Adder<'_> {
    fn header(&mut self, wishes: &[(&str, u64)]) {
        let data = wished(self.rng, wishes);
        self.case(data);
    }

    fn case(&mut self, data: Vec<u8>) {
        let before = if self.rng.percent(15) {
            self.rng.below(20) as usize
        } else {
            0
        };
        let mut bits = BitWriter::default();
        bits.bits(self.rng.number(), before as u32);
        for byte in data {
            bits.bits(byte.into(), 8);
        }
        self.list.push(Case {
            data: bits.into_bytes(),
            place: Place {
                error: self.rng.percent(2),
                ..Place::behind(before)
            },
            args: vec![self.rng.range(0, 1)],
            ..Case::of(Kind::ParseSeqHdr)
        });
    }

    fn boundaries(&mut self) {
        for (name, values, times) in BOUNDARIES {
            for &value in values {
                for _ in 0..times {
                    let mut wishes = vec![(name, value)];
                    let needs = NEEDS.iter().find(|needs| needs.0 == name);
                    wishes.extend(needs.map_or(&[][..], |needs| needs.1));
                    // Without a layout a header is short, and ends well.
                    if self.rng.percent(60) {
                        wishes.push(("tiling", 0));
                    }
                    self.header(&wishes);
                }
            }
        }
    }

    fn references(&mut self) {
        for frames in 0..16 {
            for _ in 0..5 {
                self.header(&[
                    ("reduced", 0),
                    ("told", 1),
                    ("frames", frames),
                    ("tiling", 0),
                ]);
            }
        }
        for _ in 0..8 {
            self.header(&[("reduced", 0), ("told", 0), ("tiling", 0)]);
        }
    }

    fn layers(&mut self) {
        for tlayers in 0..4 {
            for mlayers in 0..8 {
                for dependencies in 0..2 {
                    for _ in 0..2 {
                        self.header(&[
                            ("reduced", 0),
                            ("tlayers", tlayers),
                            ("mlayers", mlayers),
                            ("dependencies", dependencies),
                            ("tiling", 0),
                        ]);
                    }
                }
            }
        }
    }

    /// Layouts inside headers, at the levels where limits grow; sizes that need many tiles.
    fn levels_with_layouts(&mut self) {
        for level in [0, 3, 4, 13, 14, 15, 17, 18, 19, 31] {
            for bits in [6, 9, 11, 12, 13, 14, 15] {
                for _ in 0..2 {
                    self.header(&[
                        ("level", level),
                        ("width_bits", bits),
                        ("width", u64::MAX),
                        ("profile", 0),
                        ("tiling", 1),
                    ]);
                }
            }
        }
    }

    fn random(&mut self) {
        for i in 0..450 {
            let layout = self.rng.below(4);
            let reduced = self.rng.below(5) / 4;
            let wishes = [
                ("layout", layout),
                ("depth", i % 3),
                ("reduced", reduced),
                ("tiling", 0),
            ];
            let few = if i % 3 == 0 { 3 } else { 4 };
            self.header(&wishes[..few]);
        }
        super::made(self.list, self.rng, Kind::ParseSeqHdr, 150);
    }

    /// Headers that end a few bits before their last one, or anywhere.
    fn cut(&mut self) {
        for i in 0..240 {
            let data = wished(
                self.rng,
                &[
                    ("profile", 1),
                    ("layout", i / 2 % 4),
                    ("depth", 0),
                    ("tiling", i % 2),
                ],
            );
            let strict = self.rng.range(0, 1);
            let whole = Case {
                data,
                args: vec![strict],
                ..Case::of(Kind::ParseSeqHdr)
            };
            self.list.push(super::cut(self.rng, &whole, i % 3 == 0));
        }
    }
}
