//! Frames: reused and fresh, with sequence headers that fit and that don't.

use super::layouts::{given, layout_by_hand, read_layout, size, tiling_bits};
use crate::case::Case;
use crate::records::TILE;
use crate::rng::Rng;

/// Frame type, width, height, code, layout; then code, sizes, level, tier, tiling and layout of the sequence.
pub fn case(rng: &mut Rng, case: &mut Case) {
    let mut seq = sequence(rng);
    let (mut width, mut height) = frame_size(rng, &seq);
    if rng.percent(4) {
        match rng.below(4) {
            0 => width = rng.pick(&[0, -1, 65_537, i64::from(i32::MAX)]),
            1 => height = rng.pick(&[0, -1, 65_537, i64::from(i32::MIN)]),
            _ => spoil(rng, &mut seq),
        }
    }
    let mut layout = Vec::new();
    given(rng, &mut layout);
    let code = if rng.flag() {
        rng.range(0, 2)
    } else {
        i64::from(rng.byte())
    };
    case.args.extend([rng.range(0, 3), width, height, code]);
    case.args.extend(layout);
    case.args.extend(seq);
    tiling_bits(rng, &mut case.data);
}

/// A sequence record that can be used: its layout read for its size, or made by hand.
fn sequence(rng: &mut Rng) -> Vec<i64> {
    let code = rng.range(0, 2);
    let mut layout = vec![0; TILE];
    let mut b = read_layout(rng, &mut layout, [1, code, code]);
    if rng.percent(20) {
        layout_by_hand(rng, &mut layout);
        if rng.flag() {
            b[3] = size(rng);
            b[4] = size(rng);
        }
    }
    let present = rng.range(0, 2);
    let mut seq = vec![code, b[3], b[4], b[5], b[6], present];
    seq.extend(layout);
    seq
}

/// The sequence's size, half of it, one near it, or any. With multiplier 2 a frame of half the size has as many superblocks as the
/// sequence, and reuses a layout that is not uniform.
pub fn frame_size(rng: &mut Rng, seq: &[i64]) -> (i64, i64) {
    let way = rng.below(6);
    let by_size = seq[0] == 2 && seq[6] == 0;
    let mut of = |n: i64| {
        let n = match way {
            1 if by_size => (n + 1) / 2,
            0 | 1 => n,
            2 => n / 2,
            3 | 4 => n + rng.range(-70, 70),
            _ => size(rng),
        };
        n.clamp(1, 65_536)
    };
    (of(seq[1]), of(seq[2]))
}

fn spoil(rng: &mut Rng, seq: &mut [i64]) {
    let cols = seq[6 + 4].min(64) as u64;
    let rows = seq[6 + 8].min(64) as u64;
    match rng.below(12) {
        0 => seq[0] = rng.range(3, 255),
        1 => seq[1] = rng.pick(&[0, -1, 65_537, i64::from(i32::MAX)]),
        2 => seq[2] = rng.pick(&[0, -1, 65_537, i64::from(i32::MIN)]),
        3 => seq[3] = rng.range(32, 255),
        4 => seq[4] = rng.range(2, 255),
        5 => seq[6 + 4] = rng.pick(&[0, 65, 255]),
        6 => seq[6 + 8] = rng.pick(&[0, 65, 255]),
        7 => seq[6 + 3] = rng.range(7, 255),
        8 => seq[6 + 7] = rng.range(7, 255),
        9 | 10 => seq[6 + 9 + rng.below(cols + 1) as usize] = rng.range(1025, 65_535),
        _ => seq[6 + 74 + rng.below(rows + 1) as usize] = rng.range(1025, 65_535),
    }
}
