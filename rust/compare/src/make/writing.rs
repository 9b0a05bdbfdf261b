//! Layouts to be written: those that bits read as, those made by hand of sizes, and both with a number changed or one left behind
//! a closing start.

use super::layouts::{PAIRS, STARTS, domain, places_behind, size, spoil, tiling_bits};
use crate::by_rule::in_domain;
use crate::case::{Case, Source};
use crate::records::TILE;
use crate::rng::Rng;
use crate::theirs::fresh_layout;
use crate::writing::{least_cols, least_log2, needed, row_limit, superblocks, width_limit};

/// The most columns, and the most rows.
const MOST: i64 = 64;

/// The layout, what it is read with, the buffer's length and its first byte. The data is what a layout was read from.
pub fn case(rng: &mut Rng, case: &mut Case) -> Source {
    let by_hand = rng.percent(40);
    let mut b = if by_hand {
        listed_layout(rng, &mut case.args)
    } else {
        read_layout(rng, case)
    };
    let changed = match rng.below(10) {
        0 => old_starts(rng, &mut case.args),
        1..=4 => {
            change(rng, &mut case.args, &mut b);
            true
        }
        _ => false,
    };
    if changed {
        case.data.clear();
    }
    case.args.extend(b);
    buffer(rng, case);
    match (changed, by_hand) {
        (true, _) => Source::Damaged,
        (false, true) => Source::Made,
        (false, false) => Source::Random,
    }
}

/// A layout that random bits read as without error.
fn read_layout(rng: &mut Rng, case: &mut Case) -> [i64; 7] {
    loop {
        let b = domain(rng);
        case.data.clear();
        tiling_bits(rng, &mut case.data);
        if let Some((row, _)) = fresh_layout(&b, &case.data) {
            case.args = row;
            return b;
        }
    }
}

/// Gives a case that has no layout yet the one that its data reads as; the zero layout stays if there is none.
pub fn give_layout(case: &mut Case) {
    if let Some((row, _)) = fresh_layout(&case.args[TILE..], &case.data) {
        case.args[..TILE].copy_from_slice(&row);
    }
}

/// A layout that is not uniform, of sizes inside their limits, in few superblocks or many.
pub fn listed_layout(rng: &mut Rng, row: &mut Vec<i64>) -> [i64; 7] {
    loop {
        let mut b = domain(rng);
        if rng.percent(30) {
            let side = 64 << b[1];
            b[3] = side * rng.range(1, 70) - rng.pick(&[0, 1, side - 1]);
            b[4] = side * rng.range(1, 70) - rng.pick(&[0, 1, side - 1]);
        }
        let [sbw, sbh] = superblocks(&b);
        let Some(widths) = sizes(rng, sbw, width_limit(&b)) else {
            continue;
        };
        let widest = widths.iter().copied().max().unwrap_or(1);
        if let Some(heights) = sizes(rng, sbh, row_limit(&b, widest)) {
            *row = listed(&b, &widths, &heights);
            return b;
        }
    }
}

/// Sizes from 1 to the limit that add up to the whole, if 64 are enough.
pub fn sizes(rng: &mut Rng, whole: i64, limit: i64) -> Option<Vec<i64>> {
    let (fewest, most) = ((whole + limit - 1) / limit, whole.min(MOST));
    if fewest > most {
        return None;
    }
    let tiles = match rng.below(4) {
        0 => most,
        1 => rng.range(fewest, most.min(fewest + 3)),
        _ => rng.range(fewest, most),
    };
    let even = rng.flag();
    let mut remains = whole;
    let list = (0..tiles).rev().map(|behind| {
        let low = (remains - behind * limit).max(1);
        let high = (remains - behind).min(limit);
        let size = match rng.below(8) {
            0 => low,
            1 => high,
            _ if even => (remains / (behind + 1) + rng.range(-1, 1)).clamp(low, high),
            _ => rng.range(low, high),
        };
        remains -= size;
        size
    });
    Some(list.collect())
}

/// The record of a layout with these sizes.
pub fn listed(b: &[i64; 7], widths: &[i64], heights: &[i64]) -> Vec<i64> {
    let most_log2 = superblocks(b).map(|n| least_log2(1, n.min(MOST)));
    let log2 = |sizes: &[i64]| least_log2(1, sizes.len() as i64);
    let mut row = vec![0; TILE];
    row[1..5].copy_from_slice(&[
        least_cols(b),
        most_log2[0],
        log2(widths),
        widths.len() as i64,
    ]);
    row[6..9].copy_from_slice(&[most_log2[1], log2(heights), heights.len() as i64]);
    for ((first, _), sizes) in STARTS.into_iter().zip([widths, heights]) {
        for (i, size) in sizes.iter().enumerate() {
            row[first + i + 1] = row[first + i] + size;
        }
    }
    row
}

/// A number behind a closing start: the first there, the last, or any; or numbers at all places there. False if there is no such
/// place.
fn old_starts(rng: &mut Rng, row: &mut [i64]) -> bool {
    let mut lists = places_behind(row).to_vec();
    lists.retain(|places| !places.is_empty());
    if lists.is_empty() {
        return false;
    }
    let places = lists[rng.below(lists.len() as u64) as usize].clone();
    let closing = row[places.start - 1];
    let any = rng.range(1, 65_535);
    let number = rng.pick(&[1, closing, any]);
    match rng.below(4) {
        0 => row[places.start] = number,
        1 => row[places.end - 1] = number,
        2 => row[rng.range(places.start as i64, places.end as i64 - 1) as usize] = number,
        _ => lists
            .into_iter()
            .flatten()
            .for_each(|at| row[at] = rng.range(1, 65_535)),
    }
    true
}

/// One number of the record, two of them, the tiles told by their sizes, or what they are read with.
fn change(rng: &mut Rng, row: &mut [i64], b: &mut [i64; 7]) {
    match rng.below(20) {
        0 | 1 => spoil(rng, b),
        2 => change_frame(rng, b),
        3 => tell_sizes(row),
        4 => {
            change_number(rng, row);
            change_number(rng, row);
        }
        _ => change_number(rng, row),
    }
}

/// Another frame of the domain, mostly one in which the layout could stand too.
fn change_frame(rng: &mut Rng, b: &mut [i64; 7]) {
    match rng.below(4) {
        0 => b[5] = rng.range(0, 31),
        1 => b[6] = 1 - b[6],
        2 => b[..3].copy_from_slice(&rng.pick(&PAIRS)),
        _ => {
            let at = rng.pick(&[3, 4]);
            b[at] = if rng.flag() {
                size(rng)
            } else {
                (b[at] + rng.range(-64, 64)).clamp(1, 65_536)
            };
        }
    }
}

/// The same tiles by their sizes.
pub fn tell_sizes(row: &mut [i64]) {
    row[0] = 0;
    row[3] = least_log2(1, row[4]);
    row[5] = 0;
    row[7] = least_log2(1, row[8]);
}

/// One of the nine numbers, or a start up to and with the closing one.
fn change_number(rng: &mut Rng, row: &mut [i64]) {
    let (first, tiles) = rng.pick(&STARTS);
    let at = if rng.percent(60) {
        rng.below(9) as usize
    } else {
        first + rng.below(row[tiles].min(MOST) as u64 + 1) as usize
    };
    let most = match at {
        0 => 1,
        1..9 => 255,
        _ => 65_535,
    };
    let other = match rng.below(6) {
        0 => rng.range(0, most),
        1 => rng.range(0, most.min(7)),
        2 => row[rng.below(TILE as u64) as usize],
        _ => row[at] + rng.pick(&[-1, 1]),
    };
    row[at] = if (0..=most).contains(&other) && other != row[at] {
        other
    } else if row[at] == 0 {
        1
    } else {
        row[at] - 1
    };
}

/// As many bytes as the record's bits need, more or fewer; outside the domain few.
fn buffer(rng: &mut Rng, case: &mut Case) {
    let needed = if in_domain(&case.args[TILE..]) {
        needed(&case.args)
    } else {
        rng.range(0, 9)
    };
    let len = match rng.below(8) {
        0 => needed - 1,
        1 => rng.range(0, needed),
        2 => 177,
        3 | 4 => needed,
        _ => needed + rng.range(1, 9),
    };
    case.args.extend([len.max(0), i64::from(rng.byte())]);
}
