//! Layouts to be written: each logarithm and sizes on both sides of their limits, records with one number changed, numbers behind
//! the closing starts, buffers about the bytes needed, arguments outside the domain.

use super::by_rule;
use crate::bits::BitWriter;
use crate::case::{Case, Outcome};
use crate::kind::Kind;
use crate::make::layouts::{PAIRS, places_behind};
use crate::make::make;
use crate::make::writing::{listed, listed_layout, sizes, tell_sizes};
use crate::records::TILE;
use crate::rng::Rng;
use crate::rules::expected;
use crate::theirs::fresh_layout;
use crate::writing::{needed, row_limit, width_limit};

const KIND: Kind = Kind::WriteTileInfo;
/// The most bytes that are lent, but for the longest layouts.
const ROOM: i64 = 60;

/// A layout, and what it is read with.
type Layout = (Vec<i64>, [i64; 7]);

pub fn add(list: &mut Vec<Case>, seed: u64) {
    let mut rng = Rng::of_part(seed, 108, 0);
    let mut add = Adder {
        list,
        rng: &mut rng,
    };
    add.bases();
    add.same_tiles();
    add.logarithms();
    add.sizes();
    add.limits();
    add.exact_limits();
    add.longest();
    add.changed_numbers();
    add.changed_starts();
    add.counts();
    add.flags();
    add.arguments();
    add.lengths();
    add.random();
    add.short_buffers();
    add.starts_behind();
    add.whole_bytes();
}

/// What bits read as.
fn read(b: [i64; 7], bits: &BitWriter) -> Layout {
    let (row, _) = fresh_layout(&b, bits.bytes()).expect("a layout that is read without error");
    (row, b)
}

/// The layout of 600 by 128 samples, the codes 1 and 2, that a byte reads as.
fn narrow(byte: u8) -> Layout {
    read([2, 1, 2, 600, 128, 0, 0], &BitWriter::of(&[byte]))
}

/// Five superblocks by three: two columns and two rows, by logarithms that are neither the least nor the greatest.
fn even() -> Layout {
    read([1, 0, 0, 320, 192, 5, 1], &BitWriter::of(&[0b1101_0000]))
}

/// More superblocks than a tile may have: eight columns, by a step, and four rows, which is the fewest beside them.
fn wide() -> Layout {
    read(
        [1, 0, 0, 16_000, 16_000, 0, 0],
        &BitWriter::of(&[0b1100_0000]),
    )
}

/// What sizes give in a frame of as many superblocks.
fn told(pair: [i64; 3], level: i64, widths: &[i64], heights: &[i64]) -> Layout {
    let side = 64 << pair[1];
    let [w, h] = [widths, heights].map(|sizes| side * sizes.iter().sum::<i64>());
    let b = [pair[0], pair[1], pair[2], w, h, level, 0];
    (listed(&b, widths, heights), b)
}

/// Seven superblocks by nine.
fn few() -> Layout {
    told(PAIRS[1], 19, &[3, 1, 2, 1], &[4, 4, 1])
}

/// Columns as wide as they may be, and rows as high as they may be beside them.
fn widest() -> Layout {
    told(PAIRS[0], 0, &[64, 60, 26], &[14, 13, 14, 14, 14, 14, 14, 3])
}

/// Layouts of both kinds, each of which is written.
fn bases() -> [Layout; 8] {
    [
        narrow(0xE0),
        narrow(0xF0),
        even(),
        wide(),
        narrow(0x30),
        few(),
        widest(),
        told(PAIRS[2], 5, &[1, 2, 3], &[2, 1]),
    ]
}

struct Adder<'a> {
    list: &'a mut Vec<Case>,
    rng: &'a mut Rng,
}

impl Adder<'_> {
    /// Each layout that others are made of.
    fn bases(&mut self) {
        for layout in bases() {
            self.case(layout, 0);
            let case = self.list.last().unwrap();
            let mut outcome = Outcome::default();
            expected(case, &mut outcome);
            assert_eq!(outcome.answer, 0, "{case:?}");
        }
    }

    /// A layout, and so many bytes more than its bits need.
    fn case(&mut self, (mut args, b): Layout, more: i64) {
        args.extend(b);
        let len = (needed(&args) + more).max(0);
        args.extend([len, i64::from(self.rng.byte())]);
        self.push(args);
    }

    fn push(&mut self, args: Vec<i64>) {
        self.list.push(Case {
            args,
            ..Case::of(KIND)
        });
    }

    /// 1110, 1111 and 00110 give the columns 0 2 4 5.
    fn same_tiles(&mut self) {
        for byte in [0xE0, 0xF0, 0x30] {
            for more in [-1, 0, 2] {
                self.case(narrow(byte), more);
            }
        }
    }

    /// The least logarithms, the greatest, and some between, in each pair and in frames of several sizes.
    fn logarithms(&mut self) {
        for pair in PAIRS {
            let side = 64 << pair[2];
            for [across, down] in [[1, 1], [5, 3], [9, 2], [17, 40], [250, 250]] {
                let size = [across, down].map(|n| n * side - self.rng.pick(&[0, 1, 9]));
                for [cols, rows] in [[0, 0], [1, 1], [0, 9], [9, 0], [9, 9], [2, 3]] {
                    let mut b = [0; 7];
                    b[..3].copy_from_slice(&pair);
                    b[3..5].copy_from_slice(&size);
                    b[5] = self.rng.pick(&[0, 14, 18]);
                    b[6] = self.rng.range(0, 1);
                    if self.rng.percent(35) {
                        let bits = logarithms(b, cols, rows);
                        let more = self.rng.range(0, 2);
                        self.case(read(b, &bits), more);
                    }
                }
            }
        }
    }

    /// Sizes inside their limits; some with numbers at all places behind the closing starts.
    fn sizes(&mut self) {
        for i in 0..40 {
            let mut layout = self.listed();
            if i % 8 == 0 {
                for places in places_behind(&layout.0) {
                    layout.0[places].fill_with(|| i64::from(self.rng.number() as u16));
                }
            }
            let more = self.rng.range(0, 2);
            self.case(layout, more);
        }
        // The tiles of uniform layouts, told by their sizes.
        for (mut row, b) in [narrow(0xC0), narrow(0xE0), even(), even()] {
            tell_sizes(&mut row);
            self.case((row, b), 1);
        }
    }

    /// A layout by its sizes whose bits need no more than the room.
    fn listed(&mut self) -> Layout {
        loop {
            let mut row = Vec::new();
            let b = listed_layout(self.rng, &mut row);
            if needed(&[&row[..], &b].concat()) < ROOM {
                return (row, b);
            }
        }
    }

    /// Columns at the width's limit and rows about the area's, at the levels on both sides of those at which they grow.
    fn limits(&mut self) {
        for level in [0, 13, 14, 15, 17, 18, 19] {
            for tier in 0..2 {
                for _ in 0..2 {
                    let layout = self.at_limits(level, tier);
                    self.case(layout, 1);
                }
            }
        }
    }

    /// A layout of three columns, the first as wide as it may be, and of rows that are as high as they may be, or less.
    fn at_limits(&mut self, level: i64, tier: i64) -> Layout {
        let pair = self.rng.pick(&PAIRS);
        let side = 64 << pair[1];
        let mut b = [pair[0], pair[1], pair[2], 1, 1, level, tier];
        let limit = width_limit(&b);
        let widths = [limit, limit - 1, self.rng.range(2, limit / 2)];
        b[3] = side * widths.iter().sum::<i64>() - self.rng.pick(&[0, 1, side - 1]);
        loop {
            let sbh = self.rng.range(limit / 4, 65_536 / side);
            b[4] = side * sbh - self.rng.pick(&[0, 1, side - 1]);
            if let Some(heights) = sizes(self.rng, sbh, row_limit(&b, limit)) {
                return (listed(&b, &widths, &heights), b);
            }
        }
    }

    /// Frames of just as many superblocks as a tile may have, just as wide as a column may be, or two, and somewhat wider. Rows of
    /// the last two can have one superblock only.
    fn exact_limits(&mut self) {
        for (i, pair) in PAIRS.into_iter().enumerate() {
            let n = 64 >> pair[1];
            let exact = [
                told(pair, 0, &[n / 2, n / 4], &[n / 4, n / 4, n / 4]),
                told(pair, 0, &[n / 2, n / 4, n / 4], &[n / 8, 7 * n / 16]),
                told(pair, 0, &[n - 1, 1], &[1, 2, 1, 1]),
                told(pair, 0, &[n, n], &[1, 2, 1]),
                told(pair, 0, &[n / 2, n / 2, n / 2], &[n / 16, n / 8 - 1]),
                told(pair, 0, &[n, n / 4], &[1, 1, 1]),
                told(pair, 13, &[n, n / 8], &[1, 1, 1, 1]),
            ];
            for layout in exact {
                self.case(layout, i as i64 % 2);
            }
        }
    }

    /// 64 columns and 64 rows.
    fn longest(&mut self) {
        for (level, sizes) in [(0, [1, 1]), (18, [2, 3]), (31, [12, 16])] {
            let b = [1, 0, 0, 64 * 64 * sizes[0], 64 * 64 * sizes[1], level, 1];
            let [mut widths, mut heights] = sizes.map(|size| [size; 64]);
            if sizes[0] > 1 {
                (widths[0], widths[63]) = (sizes[0] + 1, sizes[0] - 1);
                (heights[62], heights[63]) = (1, 2 * sizes[1] - 1);
            }
            for more in [-1, 0] {
                self.case((listed(&b, &widths, &heights), b), more);
            }
        }
    }

    /// Each of the nine numbers one more and one less, in a buffer that is long enough and in one that is not.
    fn changed_numbers(&mut self) {
        for layout in bases() {
            for at in 0..9 {
                for change in [1, -1] {
                    let (mut row, b) = layout.clone();
                    row[at] += change;
                    let most = if at == 0 { 1 } else { 255 };
                    if (0..=most).contains(&row[at]) {
                        self.case((row, b), change - 1);
                    }
                }
            }
        }
    }

    /// The first start, one between, the closing one, and the number behind it.
    fn changed_starts(&mut self) {
        for (row, b) in bases() {
            for (first, count) in [(9, row[4]), (74, row[8])] {
                let mut places = vec![0, 1, count, count + 1];
                places.dedup();
                for i in places {
                    for change in [1, -1] {
                        let mut row = row.clone();
                        let start = &mut row[first + i as usize];
                        *start += change;
                        if *start >= 0 {
                            let more = self.rng.range(-1, 1);
                            self.case((row, b), if i > count { 1 } else { more });
                        }
                    }
                }
            }
        }
    }

    /// No columns or rows, as many as there may be, and more.
    fn counts(&mut self) {
        for (row, b) in [even(), few()] {
            for at in [4, 8] {
                for count in [0, 64, 65, 255] {
                    let mut row = row.clone();
                    row[at] = count;
                    self.case((row, b), 1);
                }
            }
        }
    }

    /// A flag is any byte but 0.
    fn flags(&mut self) {
        for (row, b) in [narrow(0xE0), even(), wide()] {
            for flag in [2, 128, 255] {
                let mut row = row.clone();
                row[0] = flag;
                self.case((row, b), 1);
            }
        }
    }

    /// Each argument outside the domain, for a layout and for a record that is none, with a buffer and without.
    fn arguments(&mut self) {
        const TOP: i64 = 1 << 31;
        let wrong: [(usize, &[i64]); 7] = [
            (0, &[-TOP, 0, 2, 3]),
            (1, &[1, 3, 255]),
            (2, &[1, 2, 255]),
            (3, &[-TOP, -1, 0, 65_537, TOP - 1]),
            (4, &[-TOP, -1, 0, 65_537, TOP - 1]),
            (5, &[32, 255]),
            (6, &[2, 255]),
        ];
        for (at, values) in wrong {
            for &value in values {
                for change in 0..2 {
                    let (mut row, mut b) = even();
                    b[at] = value;
                    row[6] += change;
                    let mut args = [&row[..], &b].concat();
                    args.extend([self.rng.pick(&[0, 0, 1, 3]), 200]);
                    self.push(args);
                }
            }
        }
        // The largest that there are.
        for at in [3, 4] {
            let mut b = even().1;
            b[at] = 65_536;
            self.case(read(b, &logarithms(b, 1, 1)), 0);
        }
    }

    /// Buffers about the bytes needed, and none.
    fn lengths(&mut self) {
        for _ in 0..3 {
            for more in [-ROOM, -2, -1, 0, 1, 5] {
                let layout = self.listed();
                self.case(layout, more);
            }
        }
    }

    /// As the comparison makes them, without the bits that they were read from.
    fn random(&mut self) {
        let mut case = Case::of(KIND);
        let mut outcome = Outcome::default();
        for _ in 0..30 {
            while {
                make(self.rng, &mut case, &mut outcome);
                case.data.clear();
                case.args[TILE + 7] > ROOM
            } {}
            self.push(case.args.clone());
        }
    }

    /// A number at one place behind a closing start, the first there, one between or the last; before a short buffer, and behind an
    /// argument outside the domain. Of 63 columns or rows there is but one place, of 64 none.
    fn starts_behind(&mut self) {
        let full = [
            told(PAIRS[0], 0, &[1; 63], &[2, 1]),
            told(PAIRS[1], 19, &[1, 2], &[1; 63]),
            told(PAIRS[0], 5, &[1; 64], &[1, 3]),
            told(PAIRS[2], 5, &[3, 1], &[1; 64]),
        ];
        for (row, b) in bases().into_iter().chain(full) {
            for places in places_behind(&row) {
                let mut chosen = vec![
                    places.start,
                    places.start.midpoint(places.end),
                    places.end - 1,
                ];
                chosen.retain(|place| places.contains(place));
                chosen.dedup();
                for (i, at) in chosen.into_iter().enumerate() {
                    let mut row = row.clone();
                    row[at] = self.rng.pick(&[1, row[places.start - 1], 65_535]);
                    self.case((row.clone(), b), 1 - i as i64);
                    if self.rng.percent(10) {
                        let mut b = b;
                        b[5] = 32;
                        self.case((row, b), 1);
                    }
                }
            }
        }
    }

    /// Bits that fill their last byte, in a buffer of just as many bytes and of one less.
    fn whole_bytes(&mut self) {
        let mut outcome = Outcome::default();
        for _ in 0..4 {
            let layout = loop {
                let layout = self.listed();
                self.case(layout.clone(), 0);
                expected(&self.list.pop().unwrap(), &mut outcome);
                if outcome.record[0] % 8 == 0 {
                    break layout;
                }
            };
            for more in [0, -1] {
                self.case(layout.clone(), more);
            }
        }
    }

    /// Each buffer of the layout too short, which is asked before all else, and longer than it has to be.
    fn short_buffers(&mut self) {
        let start = self.list.len();
        by_rule::Adder {
            list: self.list,
            rng: self.rng,
        }
        .short_buffers(&[KIND]);
        let mut outcome = Outcome::default();
        for (i, case) in self.list[start..].iter_mut().enumerate() {
            case.data.clear();
            expected(case, &mut outcome);
            match i % 3 {
                1 if outcome.answer == 5 => case.args[TILE + 3] = 0,
                2 if outcome.answer == 5 => case.args[1] += 1,
                _ => {}
            }
        }
    }
}

/// The bits of a uniform layout: so many steps for the columns and for the rows, or as many as there are.
fn logarithms(b: [i64; 7], cols: usize, rows: usize) -> BitWriter {
    let mut bits = BitWriter::default();
    bits.bit(true);
    let full = |bits: &BitWriter| {
        let mut bits = bits.clone();
        bits.bits(u64::MAX, 20);
        read(b, &bits).0
    };
    let most = full(&bits);
    put_steps(&mut bits, cols, most[2] - most[1]);
    let most = full(&bits);
    put_steps(&mut bits, rows, most[6] - most[5]);
    bits
}

fn put_steps(bits: &mut BitWriter, steps: usize, most: i64) {
    let most = most.max(0) as usize;
    for _ in 0..steps.min(most) {
        bits.bit(true);
    }
    if steps < most {
        bits.bit(false);
    }
}
