//! Layouts and frames within a limit: as many tiles as the limit, one more and one less; refusals that come before; layouts
//! that are reused.

use super::{by_rule, frames, layouts};
use crate::case::{Case, Outcome};
use crate::kind::Kind;
use crate::make::layouts::PAIRS;
use crate::make::within::{PANEL, WALL, set_limit};
use crate::rng::Rng;
use crate::rules::expected;
use crate::within::tiles;

const KINDS: [Kind; 2] = [Kind::ParseTileInfoWithin, Kind::ParseTileInfoFrmhdrWithin];

/// Columns and rows: on both sides of the panel's, few, and as many as the wall's.
const COUNTS: [[i64; 2]; 14] = [
    [16, 8],
    [17, 8],
    [16, 9],
    [17, 9],
    [15, 8],
    [16, 7],
    [18, 10],
    [1, 1],
    [1, 9],
    [17, 1],
    [2, 3],
    [64, 1],
    [1, 64],
    [64, 64],
];

pub fn add(list: &mut Vec<Case>, seed: u64) {
    let mut rng = Rng::of_part(seed, 106, 0);
    let mut on_wall = Vec::new();
    add_layouts(&mut on_wall, &mut rng);
    add_frames(&mut on_wall, &mut rng);
    for case in on_wall {
        for limit in limits(&mut rng, &case) {
            list.push(limited(case.clone(), limit));
        }
    }
    for kind in KINDS {
        super::made(list, &mut rng, kind, 100);
    }
    let start = list.len();
    by_rule::Adder {
        list,
        rng: &mut rng,
    }
    .short_buffers(&KINDS);
    for case in list[start..].iter_mut().step_by(2) {
        set_limit(case, [0, 0]);
    }
}

/// The case within a limit.
pub fn limited(mut case: Case, limit: [i64; 2]) -> Case {
    case.kind = match case.kind {
        Kind::ParseTileInfo => Kind::ParseTileInfoWithin,
        _ => Kind::ParseTileInfoFrmhdrWithin,
    };
    case.args.extend(limit);
    case
}

/// The tiles that are read, fewer columns, fewer rows, the panel's, and another limit. Of a refused layout the tiles are those
/// of the record given.
fn limits(rng: &mut Rng, case: &Case) -> [[i64; 2]; 5] {
    let mut outcome = Outcome::default();
    expected(case, &mut outcome);
    let [cols, rows] = tiles(&outcome.record);
    let fewer = |n: i64| (n - 1).max(0);
    let others = [
        WALL,
        [rows, cols],
        [cols + 1, rows + 1],
        [fewer(cols), fewer(rows)],
        [cols, fewer(rows)],
        [fewer(cols), rows],
        [0, 0],
        [0, 255],
        [255, 0],
        [1, 1],
        [255, 255],
        [128, rows],
        [cols, 128],
    ];
    [
        [cols, rows],
        [fewer(cols), rng.pick(&[rows, 255])],
        [rng.pick(&[cols, 255]), fewer(rows)],
        PANEL,
        rng.pick(&others),
    ]
}

fn add_layouts(list: &mut Vec<Case>, rng: &mut Rng) {
    let mut add = layouts::Adder { list, rng };
    for counts in COUNTS {
        for way in 0..3 {
            let pair = add.rng.pick(&PAIRS);
            let side = 64 << pair[1];
            let size = counts.map(|n| n * side - add.rng.pick(&[0, 1, side - 1]));
            let bits = match way {
                0 => add.uniform(8, 8),
                1 => add.told(0, 90),
                _ => add.told(3, 90),
            };
            let level = add.level();
            add.case(pair, size, level, bits);
        }
    }
    // Refused: 65 columns or rows and more, and a level that there is not.
    for i in 0..12 {
        let pair = add.rng.pick(&PAIRS);
        let side = 64 << pair[1];
        let many = side * add.rng.range(65, 70);
        let few = side * add.rng.range(1, 9);
        let size = if i % 2 == 0 { [many, few] } else { [few, many] };
        let level = if i < 8 { add.level() } else { [32, 0] };
        let bits = add.told(0, 500);
        add.case(pair, size, level, bits);
    }
}

fn add_frames(list: &mut Vec<Case>, rng: &mut Rng) {
    let mut add = frames::Adder { list, rng };
    for counts in COUNTS {
        for way in 0..4 {
            let code = add.rng.range(0, 2);
            let frame_type = add.rng.range(0, 3);
            let sides = [frames::frame_code(frame_type, code), code].map(|code| 64 << code);
            let [size, max] = sides.map(|side| counts.map(|n| n * side));
            // Reused for its logarithms, or for its size; the last reads a layout of its own.
            let mut layout = add.layout(i64::from(way != 1), [0, 0]);
            (layout[4], layout[8]) = (counts[0], counts[1]);
            let mut seq = add.sequence(code, max, layout);
            seq.present = [1, 1, 2, 0][way];
            add.case(frame_type, size, seq);
        }
    }
    // Many superblocks, some without data: refused. And a level that there is not.
    for i in 0..24 {
        let code = add.rng.range(0, 2);
        let side = 64 << code;
        let size = [side * add.rng.range(65, 70), side * add.rng.range(1, 9)];
        let layout = add.layout(1, [6, 6]);
        let mut seq = add.sequence(code, size, layout);
        seq.present = 0;
        if i < 4 {
            seq.level = [32, 0];
        }
        add.case(1, size, seq);
    }
}
