//! Layouts and frames within a limit: many have tiles beside the panel's, and most limits are beside the tiles that are read.

use super::frames;
use super::layouts::{domain, given, layout_by_hand, layout_case as any_layout_case, size};
use crate::case::{Case, Outcome};
use crate::rng::Rng;
use crate::rules::expected;
use crate::within::tiles as tiles_of;

/// The viewers' limits.
pub const WALL: [i64; 2] = [64, 64];
pub const PANEL: [i64; 2] = [16, 8];
/// A limit that no layout exceeds.
const NONE: [i64; 2] = [255, 255];

/// Columns and rows: often beside the panel's, else few, or beside the wall's.
fn tiles(rng: &mut Rng) -> [i64; 2] {
    let few_or_many = [1, 2, 3, 8, 16, 32, 33, 63, 64];
    PANEL.map(|most| {
        if rng.percent(60) {
            most + rng.range(-1, 2)
        } else {
            rng.pick(&few_or_many)
        }
    })
}

/// Bits by which most superblocks are tiles of their own: none, zeros (not uniform) or ones (uniform), some with an odd bit.
fn single_bits(rng: &mut Rng, data: &mut Vec<u8>) {
    let len = rng.pick(&[0, 1, 2, 3, 4, 8, 20, 60]);
    data.resize(len, rng.pick(&[0x00, 0xFF]));
    if len > 0 && rng.percent(30) {
        data[rng.below(len as u64) as usize] ^= 1 << rng.below(8);
    }
}

/// So many superblocks of a code.
fn samples(rng: &mut Rng, count: i64, code: i64) -> i64 {
    let side = 64 << code;
    count * side - rng.pick(&[0, 0, 1, side - 1])
}

/// As a layout's case, or one of few superblocks that are tiles of their own.
pub fn layout_case(rng: &mut Rng, case: &mut Case) {
    if rng.flag() {
        any_layout_case(rng, case);
    } else {
        given(rng, &mut case.args);
        let mut b = domain(rng);
        let [across, down] = tiles(rng);
        b[3] = samples(rng, across, b[1]);
        b[4] = samples(rng, down, b[1]);
        case.args.extend(b);
        single_bits(rng, &mut case.data);
    }
    case.args.extend(NONE);
}

/// As a frame's case, or one whose sequence has a layout made by hand, with tiles as above, which most frames reuse.
pub fn frame_case(rng: &mut Rng, case: &mut Case) {
    if rng.flag() {
        frames::case(rng, case);
    } else {
        let code = rng.range(0, 2);
        let counts = tiles(rng);
        let mut t = Vec::new();
        layout_by_hand(rng, &mut t);
        for (tiles, starts, count) in [(4, 9..74, counts[0]), (8, 74..139, counts[1])] {
            t[tiles] = count;
            let starts = &mut t[starts][..=count as usize];
            starts.fill_with(|| rng.below(1025) as i64);
            starts.sort_unstable();
        }
        // A uniform layout of one tile by its logarithms fits every frame, one that is not those of the sequence's size.
        t[0] = rng.range(0, 1);
        if t[0] == 1 && rng.percent(80) {
            (t[3], t[7]) = (0, 0);
        }
        let max = counts.map(|count| samples(rng, count, code));
        let frame = if t[0] == 0 || rng.flag() {
            max
        } else {
            [size(rng), size(rng)]
        };
        let mut layout = Vec::new();
        given(rng, &mut layout);
        let [frame_type, sb128] = [rng.range(0, 3), rng.range(0, 3)];
        // With multiplier 2 half the size has as many superblocks.
        let frame = if frame == max && code == 2 && frame_type % 2 == 0 {
            frame.map(|n| (n + 1) / 2)
        } else {
            frame
        };
        case.args.extend([frame_type, frame[0], frame[1], sb128]);
        case.args.extend(layout);
        case.args.extend([code, max[0], max[1]]);
        let present = rng.pick(&[0, 1, 1, 1, 2, 2]);
        case.args
            .extend([rng.range(0, 31), rng.range(0, 1), present]);
        case.args.extend(t);
        single_bits(rng, &mut case.data);
    }
    case.args.extend(NONE);
}

/// Gives the case a limit: a viewer's, or for each of its numbers one beside the tiles that are read, an extreme one, or any.
/// Of a refused layout the tiles are those of the record given.
pub fn limit(rng: &mut Rng, case: &mut Case, scratch: &mut Outcome) {
    expected(case, scratch);
    let counts = tiles_of(&scratch.record);
    let limit = match rng.below(10) {
        0 => WALL,
        1 | 2 => PANEL,
        _ => counts.map(|count| beside(rng, count)),
    };
    set_limit(case, limit);
}

/// Another limit in the place of the one that the case has.
pub fn set_limit(case: &mut Case, limit: [i64; 2]) {
    let end = case.args.len() - limit.len();
    case.args[end..].copy_from_slice(&limit);
}

fn beside(rng: &mut Rng, count: i64) -> i64 {
    match rng.below(10) {
        0..=4 => (count + rng.range(-1, 1)).clamp(0, 255),
        5 => rng.pick(&[0, 1, 255]),
        6 => i64::from(rng.byte()),
        // The other one decides.
        _ => rng.range(count, 255),
    }
}
