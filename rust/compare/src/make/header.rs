//! Sequence headers, written field by field in the reading order.

use super::bytes;
use super::damage::damage;
use crate::bits::BitWriter;
use crate::case::{Case, Source};
use crate::rng::Rng;
use oracle::Reader;
use oracle::headers::TileInfo;

/// A made header, a damaged one, or random bytes; strict or not.
pub fn case(rng: &mut Rng, case: &mut Case) -> Source {
    let source = match rng.below(20) {
        0..=12 => Source::Made,
        13..=18 => Source::Damaged,
        _ => Source::Random,
    };
    if source == Source::Random {
        bytes::fill(rng, &mut case.data, 60);
    } else {
        case.data = header(rng);
        if source == Source::Damaged {
            damage(rng, &mut case.data);
        }
    }
    case.args.push(rng.flag().into());
    source
}

/// What later fields of a header depend on.
struct Writer<'a> {
    rng: &'a mut Rng,
    /// Fields that are to have a value, by name.
    wishes: &'a [(&'a str, u64)],
    bits: BitWriter,
    reduced: bool,
    mono: bool,
    level: u8,
    tier: u8,
    size: [i32; 2],
    sb128: u8,
}

/// A header; one of about thirty has a field that is refused.
pub fn header(rng: &mut Rng) -> Vec<u8> {
    wished(rng, &[])
}

/// A header in which some fields have a value.
pub fn wished(rng: &mut Rng, wishes: &[(&str, u64)]) -> Vec<u8> {
    let mut w = Writer {
        rng,
        wishes,
        bits: BitWriter::default(),
        reduced: false,
        mono: false,
        level: 0,
        tier: 0,
        size: [1, 1],
        sb128: 0,
    };
    w.start();
    let layers = w.layers();
    w.size_and_crop();
    w.model();
    for layer in layers {
        w.dependencies(layer);
    }
    w.partition();
    w.segmentation();
    w.intra();
    w.motion();
    w.references();
    w.interpolation();
    w.screen();
    w.transform();
    w.quantizer();
    w.filters();
    w.tiling();
    w.end()
}

impl Writer<'_> {
    /// The value wished for a field, else the other one.
    fn wish(&self, name: &str, other: u64) -> u64 {
        let wish = self.wishes.iter().find(|wish| wish.0 == name);
        wish.map_or(other, |wish| wish.1)
    }

    fn flag(&mut self) -> bool {
        self.named_flag("")
    }

    fn named_flag(&mut self, name: &str) -> bool {
        let flag = self.rng.flag();
        let flag = self.wish(name, flag.into()) != 0;
        self.bits.bit(flag);
        flag
    }

    fn flags(&mut self, n: usize) {
        for _ in 0..n {
            self.flag();
        }
    }

    fn number(&mut self, n: u32) -> u64 {
        self.named("", n)
    }

    fn named(&mut self, name: &str, n: u32) -> u64 {
        let number = self.rng.below(1 << n);
        let number = self.wish(name, number) & ((1 << n) - 1);
        self.bits.bits(number, n);
        number
    }

    /// A number of any length, mostly a small one.
    fn vlc(&mut self) {
        self.named_vlc("");
    }

    fn named_vlc(&mut self, name: &str) {
        let number = if self.rng.percent(80) {
            self.rng.below(20)
        } else {
            self.rng.wide(32).min((1 << 32) - 2)
        };
        self.bits.vlc(self.wish(name, number));
    }

    /// Id, profile, level, tier, layout, bit depth.
    fn start(&mut self) {
        self.named_vlc("id");
        let profile = match self.rng.below(100) {
            0 => self.rng.range(9, 30) as u64,
            1..=9 => 31,
            _ => self.rng.below(9),
        };
        self.bits.bits(self.wish("profile", profile), 5);
        self.reduced = self.named_flag("reduced");
        self.level = self.named("level", 5) as u8;
        if self.level >= 4 && !self.reduced {
            self.tier = self.named_flag("tier").into();
        }
        let layout = if self.rng.percent(99) {
            self.rng.below(4)
        } else {
            self.rng.pick(&[4, 5, 255, 256, 259])
        };
        let layout = self.wish("layout", layout);
        self.mono = layout == 1;
        self.bits.vlc(layout);
        let depth = match self.rng.below(100) {
            0 => self.rng.pick(&[3, 4, 255, 259]),
            1..=5 => 256 * self.rng.range(1, 300) as u64 + self.rng.below(3),
            _ => self.rng.below(3),
        };
        self.bits.vlc(self.wish("depth", depth));
    }

    /// The highest temporal and embedded layer.
    fn layers(&mut self) -> [u64; 2] {
        if self.reduced {
            return [0, 0];
        }
        self.number(3);
        self.flag();
        let layers = [self.named("tlayers", 2), self.named("mlayers", 3)];
        self.flag();
        layers
    }

    fn size_and_crop(&mut self) {
        let lengths = ["width_bits", "height_bits"].map(|name| self.named(name, 4) as u32 + 1);
        self.size = [
            self.named("width", lengths[0]) as i32 + 1,
            self.named("height", lengths[1]) as i32 + 1,
        ];
        if self.named_flag("crop") {
            for name in ["left", "right", "top", "bottom"] {
                self.named_vlc(name);
            }
        }
    }

    fn model(&mut self) {
        if self.reduced {
            return;
        }
        if self.flag() {
            self.number(4);
        }
        if self.flag() {
            self.number(32);
            self.vlc();
            self.vlc();
        }
    }

    fn dependencies(&mut self, layer: u64) {
        if layer > 0 && self.named_flag("dependencies") {
            for n in 1..layer {
                self.number(n as u32);
            }
        }
    }

    fn partition(&mut self) {
        self.sb128 = if self.named_flag("sb256") {
            2
        } else {
            self.named_flag("sb128").into()
        };
        if !self.mono && self.flag() && !self.reduced {
            self.flag();
        }
        if self.flag() {
            self.flag();
        }
        if self.flag() {
            self.flag();
        }
    }

    fn segmentation(&mut self) {
        let ext = self.flag();
        if !self.flag() {
            return;
        }
        self.flag();
        for _ in 0..if ext { 16 } else { 8 } {
            if self.flag() {
                self.named("delta", 10);
            }
            self.flags(2);
        }
    }

    fn intra(&mut self) {
        self.flags(4);
        if !self.mono {
            self.named("filter", 2);
        }
        self.flags(2);
    }

    fn motion(&mut self) {
        if self.reduced {
            return;
        }
        let modes = self.named("modes", 4);
        if modes != 0 {
            self.flag();
        }
        // The third mode, bit 3 of motion_modes.
        if modes & 2 != 0 {
            self.flag();
        }
        self.flag();
        if self.flag() {
            self.flag();
        }
        self.named("order", 4);
    }

    fn references(&mut self) {
        self.flag();
        if !self.flag() {
            self.flag();
        }
        if !self.reduced {
            self.flag();
            if self.named_flag("told") {
                let frames = if self.rng.percent(99) {
                    self.rng.below(8)
                } else {
                    self.rng.range(8, 15) as u64
                };
                self.bits.bits(self.wish("frames", frames), 4);
            }
            self.named("long_term", 3);
            let drl = self.rng.below(5);
            self.bits.uniform(self.wish("drl", drl), 5);
            self.flag();
        }
        let bvp = self.rng.below(3);
        self.bits.uniform(self.wish("bvp", bvp), 3);
        self.flag();
        if !self.reduced {
            self.named("same", 2);
        }
    }

    fn interpolation(&mut self) {
        if self.reduced {
            self.flag();
            return;
        }
        let tip = self.named_flag("tip");
        if tip {
            self.flags(2);
        }
        self.flags(4);
        if self.flag() && tip {
            self.flag();
        }
        let refined = self.named("refined", 2) != 0;
        if (self.flag() || refined) && tip {
            self.flag();
        }
        self.flags(6);
    }

    fn screen(&mut self) {
        if self.reduced {
            return;
        }
        if self.flag() || self.flag() {
            // force_integer_mv
            if !self.flag() {
                self.flag();
            }
        }
    }

    fn transform(&mut self) {
        if !self.flag() {
            self.flag();
        }
        self.flags(2);
        self.flags(usize::from(!self.mono));
        self.flags(usize::from(!self.reduced));
        self.flag();
        self.flags(usize::from(!self.mono));
        let on = self.flag() && (self.reduced || !self.flag());
        if !on {
            self.flag();
        }
        if !self.reduced && self.flag() {
            self.flag();
        }
    }

    fn quantizer(&mut self) {
        self.flags(usize::from(!self.mono));
        let equal = self.named_flag("equal");
        if !equal {
            self.base("ydc");
        }
        if !self.mono {
            if !equal {
                self.base("uvdc");
            }
            self.base("uvac");
        }
    }

    /// Five bits and a flag.
    fn base(&mut self, name: &str) {
        self.named(name, 5);
        self.flag();
    }

    fn filters(&mut self) {
        self.flags(2);
        if self.flag() && self.sb128 == 0 {
            self.flag();
        }
        if self.flag() {
            self.flags(2);
            if self.flag() {
                self.flag();
            }
        }
        if self.flag() {
            self.flag();
        }
        if !self.reduced && !self.flag() {
            self.flag();
        }
        self.named("bits", 2);
    }

    /// Random bits, as many as the layout reads.
    fn tiling(&mut self) {
        if !self.named_flag("tiling") {
            return;
        }
        self.named_flag("adaptive");
        let start = self.bits.used();
        let most = if self.rng.percent(90) { 12 } else { 64 };
        for _ in 0..=self.rng.below(most) {
            self.named("tiles", 24);
        }
        let data = self.bits.bytes();
        let mut reader = Reader::at_place(data, start / 8, (start % 8) as u32, false);
        let [w, h] = self.size;
        let (code, level, tier) = (self.sb128, self.level, self.tier);
        // A layout that is refused, or short, is left as it is.
        let _ = reader.parse_tile_info(&mut TileInfo::default(), 1, code, code, w, h, level, tier);
        let (byte, used, _) = reader.place();
        self.bits.truncate(8 * byte + used as usize);
    }

    /// Film grain, extension, trailing one; then nothing, zeros or anything.
    fn end(mut self) -> Vec<u8> {
        self.flags(2);
        let trailing = self.rng.percent(95);
        self.bits.bit(self.wish("trailing", trailing.into()) != 0);
        let mut data = self.bits.into_bytes();
        for _ in 0..self.rng.below(4) {
            data.push(if self.rng.flag() { 0 } else { self.rng.byte() });
        }
        data
    }
}
