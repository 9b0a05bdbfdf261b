//! Film grain parameters, written field by field in the reading order.

use super::bytes;
use super::damage::damage;
use crate::bits::BitWriter;
use crate::case::{Case, Source};
use crate::rng::Rng;

/// Numbers of pixel layouts.
pub const I400: i64 = 0;
pub const I420: i64 = 1;

/// Made parameters, damaged ones, or random bytes, in each layout.
pub fn case(rng: &mut Rng, case: &mut Case) -> Source {
    let layout = rng.range(0, 3);
    let source = match rng.below(20) {
        0..=12 => Source::Made,
        13..=17 => Source::Damaged,
        _ => Source::Random,
    };
    if source == Source::Random {
        bytes::fill(rng, &mut case.data, 60);
    } else {
        case.data = grain(rng, layout);
        if source == Source::Damaged {
            damage(rng, &mut case.data);
        }
    }
    case.args.push(layout);
    source
}

/// What later fields depend on.
struct Writer<'a> {
    rng: &'a mut Rng,
    /// Fields that are to have a value, by name.
    wishes: &'a [(&'a str, u64)],
    bits: BitWriter,
    from_luma: bool,
    num_points: [u64; 3],
}

/// The names of the planes' points.
pub const PLANES: [&str; 3] = ["y", "u", "v"];

/// Parameters for a layout; one of about thirty is refused for its points.
pub fn grain(rng: &mut Rng, layout: i64) -> Vec<u8> {
    wished(rng, layout, &[])
}

/// Parameters in which some fields have a value.
pub fn wished(rng: &mut Rng, layout: i64, wishes: &[(&str, u64)]) -> Vec<u8> {
    let mut w = Writer {
        rng,
        wishes,
        bits: BitWriter::default(),
        from_luma: false,
        num_points: [0; 3],
    };
    w.lists(layout);
    w.coeffs();
    w.offsets();
    w.end()
}

impl Writer<'_> {
    /// The value wished for a field.
    fn wish(&self, name: &str) -> Option<u64> {
        let wish = self.wishes.iter().find(|wish| wish.0 == name);
        wish.map(|wish| wish.1)
    }

    /// A flag that is set in so many of 100 cases.
    fn flag(&mut self, name: &str, percent: u64) -> bool {
        let flag = self.rng.percent(percent);
        let flag = self.wish(name).map_or(flag, |wish| wish != 0);
        self.bits.bit(flag);
        flag
    }

    /// A number of n bits, often the least or the greatest.
    fn number(&mut self, name: &str, n: u32) -> u64 {
        let most = (1 << n) - 1;
        let number = match self.rng.below(8) {
            0 => 0,
            1 => most,
            _ => self.rng.below(most + 1),
        };
        let number = self.wish(name).map_or(number, |wish| wish & most);
        self.bits.bits(number, n);
        number
    }

    /// The points of luma, and of chroma where it has lists of its own.
    fn lists(&mut self, layout: i64) {
        self.from_luma = layout != I400 && self.flag("from_luma", 30);
        let planes = if layout == I400 || self.from_luma {
            1
        } else {
            3
        };
        let counts = self.counts(layout);
        for pl in 0..planes {
            self.num_points[pl] = self.wish(PLANES[pl]).unwrap_or(counts[pl]);
            self.points(self.num_points[pl]);
        }
    }

    /// How many points each plane has. In I420 both chroma planes have some, or none; but for some that are refused.
    fn counts(&mut self, layout: i64) -> [u64; 3] {
        let mut counts = PLANES.map(|_| {
            if self.rng.percent(25) {
                0
            } else {
                1 + self.rng.below(14)
            }
        });
        let one_is_empty = (counts[1] == 0) != (counts[2] == 0);
        if layout == I420 && one_is_empty && self.rng.percent(92) {
            counts[2] = counts[1];
        }
        if self.rng.percent(2) {
            counts[self.rng.below(3) as usize] = 15;
        }
        counts
    }

    fn points(&mut self, count: u64) {
        self.bits.bits(count, 4);
        if count == 0 {
            return;
        }
        let index_bits = 1 + self.number("index", 3) as u32;
        let scaling_bits = 5 + self.number("scaling", 2) as u32;
        let way = self.rng.below(32);
        let mut base = 0;
        for left in (1..=count).rev() {
            let step = self.step(way, base, left).min((1 << index_bits) - 1);
            self.bits.bits(step, index_bits);
            self.number("value", scaling_bits);
            base += step;
        }
    }

    /// How far it is from a position to the next, with so many points left.
    fn step(&mut self, way: u64, base: u64, left: u64) -> u64 {
        if left == 1
            && let Some(last) = self.wish("last")
        {
            return last.saturating_sub(base);
        }
        let room = 255u64.saturating_sub(base);
        match way {
            // All positions are equal.
            0 => 0,
            // The last position is 255, or past it.
            1 | 2 if left == 1 => room,
            3 if left == 1 => room + 1 + self.rng.below(2),
            4..=7 => self.rng.below(room + 1),
            _ => self.rng.below(room / left + 1),
        }
    }

    fn coeffs(&mut self) {
        self.number("shift", 2);
        let lag = self.number("lag", 2);
        for pl in 0..3 {
            if self.num_points[pl] == 0 && (pl == 0 || !self.from_luma) {
                continue;
            }
            let more = u64::from(pl > 0 && self.num_points[0] > 0);
            let coef_bits = 5 + self.number("width", 2) as u32;
            for _ in 0..2 * lag * (lag + 1) + more {
                self.number("coeff", coef_bits);
            }
        }
        self.number("ar_shift", 2);
        self.number("scale", 2);
    }

    fn offsets(&mut self) {
        for pl in 1..3 {
            if self.num_points[pl] > 0 {
                self.number("mult", 8);
                self.number("luma_mult", 8);
                self.number("offset", 9);
            }
        }
    }

    /// The flags; then nothing, zeros or anything.
    fn end(mut self) -> Vec<u8> {
        self.flag("overlap", 50);
        if self.flag("clip", 50) {
            self.flag("identity", 50);
        }
        self.flag("block", 50);
        let mut data = self.bits.into_bytes();
        for _ in 0..self.rng.below(4) {
            data.push(if self.rng.flag() { 0 } else { self.rng.byte() });
        }
        data
    }
}
