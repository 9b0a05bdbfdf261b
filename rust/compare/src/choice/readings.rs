//! Readings: each argument around its boundaries, on data that is just long enough, one bit short and longer.

use crate::bits::BitWriter;
use crate::case::{Case, Outcome, Place};
use crate::kind::Kind;
use crate::rng::Rng;
use crate::rules::expected;

const TOP: i64 = 1 << 31;

/// Numbers around which a length in bits changes.
const EDGES: [i64; 42] = [
    0,
    1,
    2,
    3,
    4,
    5,
    6,
    7,
    8,
    9,
    10,
    11,
    12,
    15,
    16,
    17,
    18,
    31,
    32,
    33,
    63,
    64,
    65,
    127,
    128,
    129,
    255,
    256,
    257,
    1000,
    65_535,
    65_536,
    65_537,
    (1 << 20) - 1,
    1 << 20,
    (1 << 29) + 7,
    (1 << 30) - 1,
    1 << 30,
    (1 << 30) + 1,
    (1 << 30) + (1 << 29),
    TOP - 2,
    TOP - 1,
];

pub fn add(list: &mut Vec<Case>, seed: u64) {
    let mut rng = Rng::of_part(seed, 100, 0);
    let mut add = Adder {
        list,
        rng: &mut rng,
    };
    add.single_bits();
    add.widths();
    add.vlc();
    add.uniform();
    add.ref_uniform();
    add.uleb128();
    add.golomb();
    add.subexp_u();
    add.subexp();
}

struct Adder<'a> {
    list: &'a mut Vec<Case>,
    rng: &'a mut Rng,
}

impl Adder<'_> {
    /// A case on these bits, behind so many others that are used already.
    fn case(&mut self, kind: Kind, args: &[i64], bits: &BitWriter, before: usize, error: bool) {
        let mut data = BitWriter::default();
        data.bits(self.rng.number(), before as u32);
        data.append(bits);
        self.list.push(Case {
            data: data.into_bytes(),
            place: Place {
                error,
                ..Place::behind(before)
            },
            args: args.to_vec(),
            ..Case::of(kind)
        });
    }

    /// The bits from some place; then, if they are all read, from one at which the data ends with the last of them, and
    /// from one at which it ends a bit earlier.
    fn around(&mut self, kind: Kind, args: &[i64], bits: &BitWriter) {
        let before = self.rng.below(17) as usize;
        let error = self.rng.percent(5);
        self.case(kind, args, bits, before, error);
        let case = self.list.last().unwrap();
        let mut outcome = Outcome::default();
        expected(case, &mut outcome);
        let read = outcome.place.bits() - before;
        for kept in [Some(read), read.checked_sub(1)].into_iter().flatten() {
            let mut ending = bits.clone();
            ending.truncate(kept);
            let before = (8 - ending.used() % 8) % 8 + 8 * self.rng.below(3) as usize;
            self.case(kind, args, &ending, before, false);
        }
    }

    /// Some bits: zeros, ones, or any.
    fn any(&mut self, n: u32) -> BitWriter {
        let mut bits = BitWriter::default();
        let way = self.rng.below(5);
        for _ in 0..n {
            bits.bit(match way {
                0 => false,
                1 => true,
                _ => self.rng.flag(),
            });
        }
        bits
    }

    /// get_bit, bytealign and the positions at each place of some bytes, the end and places past it.
    fn single_bits(&mut self) {
        for kind in [Kind::GetBit, Kind::Bytealign, Kind::Positions] {
            for bytes in 0..4 {
                for place in 0..8 * bytes + 11 {
                    let error = place % 5 == 3;
                    let data: Vec<u8> = (0..bytes).map(|_| self.rng.byte()).collect();
                    self.list.push(Case {
                        data,
                        place: Place {
                            error,
                            ..Place::behind(place)
                        },
                        ..Case::of(kind)
                    });
                }
            }
        }
    }

    fn widths(&mut self) {
        for kind in [Kind::GetBits, Kind::GetSbits] {
            for n in (-2..=35).chain([-TOP, -33, -32, 63, 64, 65, 256, 288, TOP - 1]) {
                for _ in 0..5 {
                    let bits = self.any(70);
                    self.around(kind, &[n], &bits);
                }
                // All that remains is too short, and there is none.
                for left in [0, 1, 9] {
                    let bits = self.any(left);
                    self.case(kind, &[n], &bits, (16 - left as usize) % 8 + 8, left == 1);
                }
                // A zero that is refused too late is still there.
                let mut bits = BitWriter::default();
                bits.bits(1, 24);
                self.case(kind, &[n], &bits, 8, false);
            }
        }
    }

    fn vlc(&mut self) {
        for zeros in 0..=34 {
            for way in 0..4 {
                let mut bits = BitWriter::default();
                bits.bits(0, zeros);
                bits.bit(true);
                let tail = match way {
                    0 => 0,
                    1 => u64::MAX,
                    _ => self.rng.number(),
                };
                bits.bits(tail, 40);
                self.around(Kind::GetVlc, &[], &bits);
            }
        }
        for n in [0, 7, 31, 32, 33, 40, 64] {
            let bits = self.zeros(n);
            self.case(Kind::GetVlc, &[], &bits, 8 - n as usize % 8, false);
        }
    }

    fn zeros(&mut self, n: u32) -> BitWriter {
        let mut bits = BitWriter::default();
        bits.bits(0, n);
        bits
    }

    /// The values of get_uniform around the one where its length changes.
    fn uniform_values(max: i64) -> Vec<i64> {
        if max <= 1 {
            return vec![0; 4];
        }
        let short = (2 << max.ilog2()) - max;
        let mut values = vec![
            0,
            1,
            short - 1,
            short,
            short + 1,
            short + 2,
            max - 2,
            max - 1,
        ];
        values.retain(|value| (0..max).contains(value));
        values.sort_unstable();
        values.dedup();
        values
    }

    fn uniform(&mut self) {
        for max in EDGES {
            for value in Self::uniform_values(max) {
                let mut bits = BitWriter::default();
                bits.uniform(value as u64, max as u64);
                bits.append(&self.any(9));
                self.around(Kind::GetUniform, &[max], &bits);
            }
        }
    }

    fn ref_uniform(&mut self) {
        for max in EDGES {
            let mut defs = vec![
                0,
                1,
                2,
                max / 2,
                max - 3,
                max - 2,
                max - 1,
                max,
                max + 1,
                2 * TOP - 1,
            ];
            defs.retain(|&def| def >= 0);
            defs.sort_unstable();
            defs.dedup();
            for def in defs {
                let mut bits = BitWriter::default();
                bits.bit(false);
                bits.append(&self.any(3));
                self.around(Kind::GetRefUniform, &[max, def], &bits);
                let held = def.min(max - 1);
                for value in [held - 1, held, held + 1, max - 2] {
                    if (0..max - 1).contains(&value) {
                        let mut bits = BitWriter::default();
                        bits.bit(true);
                        bits.uniform(value as u64, max as u64 - 1);
                        bits.append(&self.any(9));
                        let before = self.rng.below(12) as usize;
                        self.case(Kind::GetRefUniform, &[max, def], &bits, before, false);
                    }
                }
            }
        }
    }

    fn uleb128(&mut self) {
        let wide = [
            0,
            1,
            127,
            128,
            16_383,
            16_384,
            (1 << 21) - 1,
            1 << 21,
            (1 << 28) - 1,
            1 << 28,
            (1 << 31) - 1,
            1 << 31,
            (1 << 32) - 2,
            (1 << 32) - 1,
            1 << 32,
            (1 << 32) + 1,
            1 << 33,
            1 << 34,
            (1 << 35) - 1,
            1 << 35,
            1 << 41,
            1 << 42,
            1 << 48,
            1 << 49,
            1 << 55,
            (1 << 56) - 1,
        ];
        for value in wide {
            for len in 1..=9 {
                if len < 8 && value >> (7 * len) != 0 {
                    continue;
                }
                let mut bits = BitWriter::default();
                for i in 0..len {
                    let part = if i < 8 { value >> (7 * i) & 0x7F } else { 0x55 };
                    bits.bits(part | if i + 1 < len { 0x80 } else { 0 }, 8);
                }
                bits.append(&self.any(16));
                self.around(Kind::GetUleb128, &[], &bits);
            }
        }
    }

    fn golomb(&mut self) {
        for k in (0..=34).chain([63, 64, 2 * TOP - 1]) {
            let most = (32 - k).max(0);
            let mut counts = vec![0, 1, 2, 3, most / 2, most - 2, most - 1, most, most + 1];
            counts.retain(|&ones| ones >= 0);
            counts.sort_unstable();
            counts.dedup();
            for ones in counts {
                let mut bits = BitWriter::default();
                bits.bits(u64::MAX, ones as u32);
                bits.bit(false);
                bits.append(&self.any(36));
                self.around(Kind::GetGolomb, &[k], &bits);
            }
        }
    }

    /// The longer way through: one bits, then any.
    fn steps(&mut self) -> BitWriter {
        let mut bits = BitWriter::default();
        let ones = self.rng.below(6);
        bits.bits(u64::MAX, ones as u32);
        bits.append(&self.any(60));
        bits
    }

    fn subexp_u(&mut self) {
        for n in [
            1,
            2,
            3,
            4,
            5,
            6,
            7,
            8,
            9,
            12,
            16,
            23,
            24,
            25,
            32,
            33,
            47,
            48,
            49,
            63,
            64,
            100,
            127,
            1000,
            65_535,
            1 << 20,
            1 << 30,
            (1 << 30) + 1,
            (3 << 29) - 1,
            TOP - 1,
        ] {
            for ref_val in [0, 1, n / 2 - 1, n / 2, n / 2 + 1, n - 2, n - 1, n, n + 1] {
                if ref_val < 0 {
                    continue;
                }
                for _ in 0..2 {
                    let k = if self.rng.percent(75) {
                        self.rng.range(0, 4)
                    } else {
                        self.rng.pick(&[-1, 5, 10, 28, 29, 30, 31, 32, -TOP])
                    };
                    let bits = self.steps();
                    self.around(Kind::GetBitsSubexpU, &[ref_val, n, k], &bits);
                }
            }
        }
        for k in -2..=34 {
            for n in [1, 3, 50, 65_536, TOP - 1] {
                let bits = self.steps();
                self.around(Kind::GetBitsSubexpU, &[n / 3, n, k], &bits);
            }
        }
        let bits = self.steps();
        self.around(Kind::GetBitsSubexpU, &[0, 0, 3], &bits);
    }

    fn subexp(&mut self) {
        for n in [
            0,
            1,
            2,
            3,
            4,
            5,
            6,
            8,
            9,
            12,
            13,
            24,
            25,
            64,
            351,
            1000,
            65_535,
            1 << 20,
            (1 << 30) - 1,
            1 << 30,
        ] {
            for ref_val in [
                -TOP,
                -n - 1,
                -n,
                1 - n,
                2 - n,
                -(n / 2),
                -2,
                -1,
                0,
                1,
                2,
                n / 2,
                n - 2,
                n - 1,
                n,
                n + 1,
                TOP - n,
                TOP - n + 1,
                TOP - 1,
            ] {
                let bits = self.steps();
                let args = [i64::from(ref_val as i32), n];
                self.around(Kind::GetBitsSubexp, &args, &bits);
            }
        }
    }
}
