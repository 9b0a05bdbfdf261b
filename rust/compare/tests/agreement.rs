//! A short comparison of each kind; the program `compare` does the long one.

use compare::bits::BitWriter;
use compare::case::{Case, Outcome, Place};
use compare::kind::Kind;
use compare::make::grain::grain;
use compare::make::header::header;
use compare::make::layouts::{PAIRS, places_behind};
use compare::make::make;
use compare::make::within::{PANEL, set_limit};
use compare::options::Options;
use compare::records::TILE;
use compare::report;
use compare::rng::Rng;
use compare::rule::Rule;
use compare::rules;
use compare::run::{Plan, differs, run};
use compare::shrink::shrink;
use compare::theirs::fresh_layout;
use compare::within::tiles;
use oracle::Reader;
use oracle::headers::PixelLayout;
use std::collections::HashMap;

fn plan(kind: Kind, seed: u64) -> Plan {
    Plan {
        kind,
        seed,
        cases: 10_000,
        exhaustive_bytes: 0,
        threads: 2,
    }
}

#[test]
fn every_kind_agrees() {
    for kind in Kind::ALL {
        if let Err(case) = run(&plan(kind, 1)) {
            panic!("{}", report::difference(&shrink(case, differs)));
        }
    }
}

#[test]
fn a_run_depends_on_its_seed_alone() {
    let accepted = |seed, threads| {
        let plan = Plan {
            threads,
            ..plan(Kind::ParseTileInfo, seed)
        };
        run(&plan).unwrap().accepted
    };
    assert_eq!(accepted(3, 1), accepted(3, 2));
    assert_ne!(accepted(3, 1), accepted(4, 1));
}

#[test]
fn most_made_headers_are_accepted() {
    let mut rng = Rng::new(5);
    let accepted = (0..1000)
        .filter(|_| Reader::new(&header(&mut rng)).parse_seq_hdr(false).is_ok())
        .count();
    assert!(accepted > 900, "{accepted} of 1000");
}

#[test]
fn most_made_film_grain_is_accepted() {
    let mut rng = Rng::new(5);
    for layout in [
        PixelLayout::I400,
        PixelLayout::I420,
        PixelLayout::I422,
        PixelLayout::I444,
    ] {
        let accepted = (0..1000)
            .filter(|_| {
                let data = grain(&mut rng, layout as i64);
                Reader::new(&data).parse_film_grain_data(layout).is_ok()
            })
            .count();
        // Some are refused on purpose.
        assert!((880..1000).contains(&accepted), "{accepted} of 1000");
    }
}

#[test]
fn a_failing_case_is_made_small() {
    let case = Case {
        data: (0..40).collect(),
        place: Place {
            byte: 3,
            used: 2,
            error: true,
        },
        args: vec![31],
        ..Case::of(Kind::GetBits)
    };
    // Stands for a difference: a byte of 16 or more, and a width above 6.
    let fails = |case: &Case| case.data.iter().any(|&byte| byte >= 16) && case.args[0] > 6;
    let smallest = shrink(case, fails);
    assert_eq!(smallest.data, [16]);
    assert_eq!(smallest.args, [7]);
    assert_eq!(smallest.place, Place::default());
}

#[test]
fn an_added_limit_is_a_known_difference() {
    let case = Case {
        data: vec![0; 4],
        args: vec![1 << 31],
        ..Case::of(Kind::GetUniform)
    };
    let mut expected = Outcome::default();
    rules::expected(&case, &mut expected);
    assert_eq!(expected.rule, Some(Rule::Limit));
    assert_eq!(expected.answer, 0);
    assert!(expected.place.error && expected.place.byte == 0);
}

/// A layout of 17 columns and 9 rows without data, over a record full of threes, within a limit.
fn limited(cols: i64, rows: i64) -> (Case, Outcome) {
    let mut args = vec![3; TILE];
    args.extend([1, 0, 0, 17 * 64, 9 * 64, 0, 0, cols, rows]);
    let case = Case {
        args,
        ..Case::of(Kind::ParseTileInfoWithin)
    };
    let mut outcome = Outcome::default();
    rules::expected(&case, &mut outcome);
    (case, outcome)
}

#[test]
fn a_limit_is_a_known_difference() {
    let (_, wall) = limited(64, 64);
    assert_eq!((wall.answer, wall.rule), (0, Some(Rule::Cleared)));
    assert_eq!((wall.record[4], wall.record[8]), (17, 9));
    for (cols, rows, many) in [
        (17, 9, false),
        (16, 9, true),
        (17, 8, true),
        (16, 8, true),
        (255, 255, false),
        (0, 255, true),
        (255, 0, true),
    ] {
        let (case, within) = limited(cols, rows);
        assert_eq!(within.place, wall.place);
        if many {
            assert_eq!((within.answer, within.rule), (6, Some(Rule::TooMany)));
            assert_eq!(within.record, case.given());
        } else {
            assert!(within.agrees(&wall));
        }
    }
}

/// A frame of three superblocks by two, of a code and a type, over a record full of threes, with a sequence's layout of two columns
/// and one row that is full of fives behind its closing starts.
fn framed(code: i64, frame_type: i64, present: i64) -> (Case, Outcome) {
    let side = 64 << code;
    let mut args = vec![frame_type, 3 * side, 2 * side, 3];
    args.extend([3; TILE]);
    args.extend([code, 3 * side, 2 * side, 0, 0, present]);
    let mut layout = vec![5; TILE];
    layout[..9].copy_from_slice(&[1, 0, 2, 1, 2, 9, 1, 0, 1]);
    layout[9..12].copy_from_slice(&[0, 2, 3]);
    layout[74..76].copy_from_slice(&[0, 2]);
    args.extend(layout);
    let case = Case {
        data: vec![0; 60],
        args,
        ..Case::of(Kind::ParseTileInfoFrmhdr)
    };
    let mut outcome = Outcome::default();
    rules::expected(&case, &mut outcome);
    (case, outcome)
}

/// Read or reused, with either multiplier: of the starts up to the closing ones the Rust's, and zeros behind them.
#[test]
fn zeros_behind_the_closing_starts_are_a_known_difference() {
    let (_, fresh) = limited(64, 64);
    let expected: Vec<i64> = (0..=17).chain([0; 47]).collect();
    assert_eq!(fresh.record[9..74], expected);
    assert_eq!(fresh.record[5], 3); // no start: it stays
    for (code, frame_type, present, cols, least) in [
        (0, 1, 1, &[0, 2, 3][..], 9),
        (2, 1, 1, &[0, 2, 3], 9),
        (2, 0, 1, &[0, 4, 6], 9),
        (1, 0, 0, &[0, 1, 2, 3], 3),
    ] {
        let (_, outcome) = framed(code, frame_type, present);
        assert_eq!((outcome.answer, outcome.rule), (0, Some(Rule::Cleared)));
        let t = &outcome.record[1..];
        assert_eq!((t[5], &t[9..9 + cols.len()]), (least, cols));
        let mut behind = places_behind(t).into_iter().flatten();
        assert!(behind.all(|at| t[at] == 0), "{t:?}");
    }
    // Without an old start it is the Rust's reading and no more.
    let (mut case, _) = framed(0, 1, 1);
    let seq = 4 + TILE + 6;
    for at in places_behind(&case.args[seq..]).into_iter().flatten() {
        case.args[seq + at] = 0;
    }
    let mut outcome = Outcome::default();
    rules::expected(&case, &mut outcome);
    assert_eq!((outcome.answer, outcome.rule), (0, None));
}

/// 2, 4, 5 and 6: the record given, with its old starts.
#[test]
fn a_refusal_keeps_the_old_starts() {
    let given = [3; TILE];
    let (many, _) = limited(16, 9);
    let change = |at: usize, number: i64| {
        let mut case = many.clone();
        case.args[TILE + at] = number;
        case
    };
    let short = Case {
        lent: vec![9, 64, 65],
        ..many.clone()
    };
    for (case, answer) in [
        (change(3, 65 * 64), 2),
        (change(5, 32), 4),
        (short, 5),
        (many.clone(), 6),
    ] {
        let mut outcome = Outcome::default();
        rules::expected(&case, &mut outcome);
        assert_eq!((outcome.answer, &outcome.record[..]), (answer, &given[..]));
    }
}

/// Layouts that are cleared, read and reused, uniform and not, with either multiplier; and refusals of records with old starts.
#[test]
fn old_starts_are_made() {
    for kind in [
        Kind::ParseTileInfo,
        Kind::ParseTileInfoFrmhdr,
        Kind::ParseTileInfoWithin,
        Kind::ParseTileInfoFrmhdrWithin,
    ] {
        let mut rng = Rng::new(7);
        let mut case = Case::of(kind);
        let mut outcome = Outcome::default();
        // By the flag and by whether the multiplier is 2.
        let [mut read, mut reused] = [[[0; 2]; 2]; 2];
        let mut refused = [0; 7];
        for _ in 0..20_000 {
            make(&mut rng, &mut case, &mut outcome);
            rules::expected(&case, &mut outcome);
            let (code, t) = outcome.record.split_at(outcome.record.len() - TILE);
            if outcome.answer != 0 {
                refused[outcome.answer as usize] += u32::from(t[73] != 0 || t[138] != 0);
            } else if outcome.rule == Some(Rule::Cleared) {
                let (doubled, is_reused) = if code.is_empty() {
                    (case.args[TILE] == 2, false)
                } else {
                    let seq = &case.args[4 + TILE..];
                    (code[0] != seq[0], t[..9] == seq[6..15])
                };
                let seen = if is_reused { &mut reused } else { &mut read };
                seen[t[0] as usize][usize::from(doubled)] += 1;
            }
        }
        let name = kind.name();
        assert!(read.iter().flatten().all(|&n| n > 200), "{name}: {read:?}");
        let is_frame = kind.full_lengths().len() == 6;
        let enough = |&n: &u32| if is_frame { n > 40 } else { n == 0 };
        assert!(reused.iter().flatten().all(enough), "{name}: {reused:?}");
        assert!(refused[2] > 600 && refused[4] > 100, "{name}: {refused:?}");
        assert!(
            refused[6] > 3000 || !kind.is_limited(),
            "{name}: {refused:?}"
        );
    }
}

/// Cases within a limit that have as many columns or rows as the panel, and one more, and limits beside what is read.
#[test]
fn the_edges_of_limits_are_made() {
    for kind in [Kind::ParseTileInfoWithin, Kind::ParseTileInfoFrmhdrWithin] {
        let mut rng = Rng::new(7);
        let mut case = Case::of(kind);
        let mut outcome = Outcome::default();
        let mut seen = [[0; 2]; 6];
        for _ in 0..10_000 {
            make(&mut rng, &mut case, &mut outcome);
            let limit = case.limit().unwrap();
            set_limit(&mut case, [255, 255]);
            rules::expected(&case, &mut outcome);
            if outcome.answer != 0 {
                continue;
            }
            let counts = tiles(&outcome.record);
            for (i, (count, most)) in counts.into_iter().zip([limit.cols, limit.rows]).enumerate() {
                let edges = [count - PANEL[i], count - most];
                for (at, edge) in edges.into_iter().enumerate() {
                    if (-1..=1).contains(&edge) {
                        seen[3 * at + (edge + 1) as usize][i] += 1;
                    }
                }
            }
        }
        let least = seen.iter().flatten().min();
        assert!(least > Some(&300), "{}: {seen:?}", kind.name());
    }
}

/// The rule's answer for a layout and a buffer of the bytes FF 00, and the count of bits and the bytes after it.
fn written(t: &[i64], b: &[i64; 7]) -> (i64, Vec<i64>) {
    let mut args = [t, b].concat();
    args.extend([2, 0xFF]);
    let case = Case {
        args,
        ..Case::of(Kind::WriteTileInfo)
    };
    let mut outcome = Outcome::default();
    rules::expected(&case, &mut outcome);
    outcome.record.truncate(3);
    (outcome.answer, outcome.record)
}

/// In frames of so few superblocks that two bytes tell every layout: each layout that any bits read as is written as those bits,
/// and a record with one number changed is refused with 8 unless there are bits for it.
#[test]
fn the_rule_of_writing_finds_all_bits_that_there_are() {
    let mut refused = 0;
    for (pair, across, down) in [
        (PAIRS[0], 5, 3),
        (PAIRS[0], 1, 1),
        (PAIRS[1], 3, 5),
        (PAIRS[2], 6, 1),
        (PAIRS[3], 5, 3),
    ] {
        let side = 64 << pair[1];
        let b = [
            pair[0],
            pair[1],
            pair[2],
            across * side - 40,
            down * side,
            0,
            0,
        ];
        let mut rows = HashMap::new();
        for data in 0..=u16::MAX {
            if let Some((t, used)) = fresh_layout(&b, &data.to_be_bytes()) {
                let bits = data >> (16 - used) << (16 - used);
                assert_eq!(*rows.entry(t).or_insert((bits, used)), (bits, used));
            }
        }
        for (t, &(bits, used)) in &rows {
            let [high, low] = bits.to_be_bytes().map(i64::from);
            let low = if used > 8 { low } else { 0 };
            assert_eq!(written(t, &b), (0, vec![used as i64, high, low]));
            for at in 0..TILE {
                for change in [-1, 1] {
                    let mut other = t.clone();
                    other[at] += change;
                    let most = if at == 0 { 1 } else { 255 };
                    if !(0..=most).contains(&other[at]) {
                        continue;
                    }
                    let answer = written(&other, &b).0;
                    let known = rows.contains_key(&other);
                    assert_eq!(answer, if known { 0 } else { 8 }, "{b:?} {other:?}");
                    refused += u32::from(!known);
                }
            }
        }
    }
    assert!(refused > 1000, "{refused} refused");
}

/// Layouts of both kinds in each pair, with few tiles and many, and each answer; 8 also for a number behind a closing start alone,
/// the first there and the last. The bits that a layout was read from are the rule's own.
#[test]
fn layouts_to_write_are_of_every_sort() {
    let mut rng = Rng::new(7);
    let mut case = Case::of(Kind::WriteTileInfo);
    let [mut outcome, mut own] = [Outcome::default(), Outcome::default()];
    let mut answers = [0; 9];
    let mut accepted = [[0; 4]; 2];
    let (mut many, mut read) = (0, 0);
    let mut behind = [[0; 2]; 2];
    for _ in 0..20_000 {
        make(&mut rng, &mut case, &mut outcome);
        rules::expected(&case, &mut outcome);
        answers[outcome.answer as usize] += 1;
        read += u32::from(!case.data.is_empty() && outcome.answer == 0);
        case.data.clear();
        rules::expected(&case, &mut own);
        assert!(outcome.agrees(&own), "{case:?}");
        let a = &mut case.args;
        if outcome.answer == 0 {
            let pair = PAIRS.iter().position(|pair| a[139..142] == pair[..]);
            accepted[a[0] as usize][pair.unwrap()] += 1;
            many += u32::from(a[4] > 60 && a[0] == 0) + u32::from(a[8] > 60 && a[0] == 0);
        } else if outcome.answer == 8 && a[4] <= 64 && a[8] <= 64 {
            let places = places_behind(a);
            let old: Vec<usize> = places
                .iter()
                .cloned()
                .flatten()
                .filter(|&at| a[at] != 0)
                .collect();
            for (places, behind) in places.into_iter().zip(&mut behind) {
                if old == [places.start] || old == [places.end - 1] {
                    a[old[0]] = 0;
                    rules::expected(&case, &mut own);
                    behind[usize::from(old != [places.start])] += u32::from(own.answer != 8);
                    break;
                }
            }
        }
    }
    assert!(
        [0, 4, 5, 8].iter().all(|&n| answers[n] > 500),
        "{answers:?}"
    );
    assert!(accepted.iter().flatten().all(|&n| n > 500), "{accepted:?}");
    assert!(many > 300 && read > 3000, "{many} {read}");
    assert!(behind.iter().flatten().all(|&n| n > 100), "{behind:?}");
}

#[test]
fn written_numbers_read_back() {
    let mut w = BitWriter::default();
    for n in [0, 1, 2, 7, 255, 65_536] {
        w.vlc(n);
        w.uniform(n % 1000, 1000);
    }
    let bytes = w.into_bytes();
    let mut gb = Reader::new(&bytes);
    for n in [0, 1, 2, 7, 255, 65_536] {
        assert_eq!(gb.get_vlc(), n);
        assert_eq!(gb.get_uniform(1000), n % 1000);
    }
}

#[test]
fn options_are_read() {
    let words = ["--cases", "1_000", "../src", "--kinds", "get_bit,rows"].map(String::from);
    let options = Options::parse(&words).unwrap();
    assert_eq!(options.cases, 1000);
    assert_eq!(options.kinds, [Kind::GetBit, Kind::Rows]);
    assert_eq!(options.folder.unwrap(), std::path::Path::new("../src"));
    assert_eq!(
        options.rest,
        ["--cases", "1_000", "--kinds", "get_bit,rows"]
    );
    assert!(Options::parse(&["--kinds".into(), "get_all".into()]).is_err());
}
