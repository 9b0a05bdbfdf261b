//! What a run prints: tables of counts, and a difference in full.

use crate::case::{Case, Outcome, Source};
use crate::kind::Kind;
use crate::ours;
use crate::records::{grain_names, header_names, seg_names, tile_names};
use crate::rule::Rule;
use crate::tally::Tally;
use std::fmt::Write;
use std::panic::{AssertUnwindSafe, catch_unwind};

/// So many arguments are shown though they are 0.
const FEW: usize = 8;

/// A number with a comma before each group of three digits.
pub fn grouped(n: u64) -> String {
    let digits = n.to_string();
    let mut text = String::new();
    for (i, digit) in digits.chars().enumerate() {
        if i > 0 && (digits.len() - i).is_multiple_of(3) {
            text.push(',');
        }
        text.push(digit);
    }
    text
}

/// The counts of all kinds, as tables in Markdown.
pub fn summary(tallies: &[(Kind, Tally)]) -> String {
    let mut text = String::new();
    outcomes(&mut text, tallies).unwrap();
    sources(&mut text, tallies).unwrap();
    known_differences(&mut text, tallies).unwrap();
    text
}

fn outcomes(text: &mut String, tallies: &[(Kind, Tally)]) -> std::fmt::Result {
    writeln!(
        text,
        "| kind | cases | accepted | 1 | 2 | 3 | 4 | 5 | 6 | 7 | 8 | reader's error | known differences |"
    )?;
    writeln!(text, "|---|{}", "---:|".repeat(12))?;
    for (kind, tally) in tallies {
        write!(
            text,
            "| {} | {} | {} |",
            kind.name(),
            grouped(tally.cases),
            grouped(tally.accepted)
        )?;
        for refused in tally.refused {
            write!(text, " {} |", grouped(refused))?;
        }
        writeln!(
            text,
            " {} | {} |",
            grouped(tally.error),
            grouped(tally.known())
        )?;
    }
    let all: u64 = tallies.iter().map(|(_, tally)| tally.cases).sum();
    writeln!(
        text,
        "\n{} cases in all. A reading counts as accepted where the reader's error is not set after it.\n",
        grouped(all)
    )
}

fn sources(text: &mut String, tallies: &[(Kind, Tally)]) -> std::fmt::Result {
    writeln!(
        text,
        "How they were made, and how many of these were accepted:\n"
    )?;
    write!(text, "| kind |")?;
    for source in Source::ALL {
        write!(text, " {} | accepted |", source.name())?;
    }
    writeln!(text, "\n|---|{}", "---:|---:|".repeat(Source::ALL.len()))?;
    for (kind, tally) in tallies {
        write!(text, "| {} |", kind.name())?;
        for [cases, accepted] in tally.sources {
            write!(text, " {} | {} |", grouped(cases), grouped(accepted))?;
        }
        writeln!(text)?;
    }
    writeln!(text)
}

fn known_differences(text: &mut String, tallies: &[(Kind, Tally)]) -> std::fmt::Result {
    writeln!(text, "| known difference, its rule checked | cases |")?;
    writeln!(text, "|---|---:|")?;
    for rule in Rule::ALL {
        let cases: u64 = tallies
            .iter()
            .map(|(_, tally)| tally.rules[rule as usize])
            .sum();
        writeln!(text, "| {} | {} |", rule.sentence(), grouped(cases))?;
    }
    Ok(())
}

/// A case on which the libraries differ, with both outcomes.
pub fn difference(case: &Case) -> String {
    let mut expected = Outcome::default();
    let mut got = Outcome::default();
    let mut text = describe(case);
    let run = |f: &mut dyn FnMut()| catch_unwind(AssertUnwindSafe(f)).is_ok();
    if !run(&mut || crate::rules::expected(case, &mut expected)) {
        text.push_str("  the Rust panics\n");
    } else if !run(&mut || ours::run(case, &mut got)) {
        text.push_str("  our library panics\n");
    } else {
        both(&mut text, case, &expected, &got).unwrap();
    }
    text
}

fn both(text: &mut String, case: &Case, expected: &Outcome, got: &Outcome) -> std::fmt::Result {
    if let Some(rule) = expected.rule {
        writeln!(text, "  rule: {}", rule.sentence())?;
    }
    for (who, outcome) in [("expected", expected), ("ours    ", got)] {
        let place = outcome.place;
        writeln!(
            text,
            "  {who}: {}, byte {}, used {}, error {}",
            outcome.answer,
            place.byte,
            place.used,
            u32::from(place.error)
        )?;
    }
    if case.kind == Kind::Callers {
        writeln!(text, "  expected: {}", text_of(&expected.record))?;
        return writeln!(text, "  ours    : {}", text_of(&got.record));
    }
    let names = record_names(case.kind);
    let numbers = expected.record.len().max(got.record.len());
    for i in 0..numbers {
        let (e, g) = (expected.record.get(i), got.record.get(i));
        if e != g {
            let name = names.get(i).map_or_else(|| i.to_string(), Clone::clone);
            let number = |n: Option<&i64>| n.map_or("nothing".to_string(), ToString::to_string);
            writeln!(
                text,
                "  record {name}: expected {}, ours {}",
                number(e),
                number(g)
            )?;
        }
    }
    Ok(())
}

/// A text that was made numbers.
fn text_of(numbers: &[i64]) -> String {
    let bytes: Vec<u8> = numbers.iter().flat_map(|n| n.to_le_bytes()).collect();
    String::from_utf8_lossy(&bytes)
        .trim_end_matches('\0')
        .to_string()
}

fn record_names(kind: Kind) -> Vec<String> {
    match kind {
        Kind::ParseTileInfo | Kind::ParseTileInfoWithin => tile_names(),
        Kind::ParseSeqHdr => header_names(),
        Kind::ParseSegInfo => seg_names(),
        Kind::ParseFilmGrainData => grain_names(),
        Kind::WriteTileInfo => vec!["bits".to_string()],
        Kind::ParseTileInfoFrmhdr | Kind::ParseTileInfoFrmhdrWithin => {
            [vec!["sb128".to_string()], tile_names()].concat()
        }
        _ => vec![],
    }
}

/// The names of the arguments that a layout is read with, or written for.
const READ_WITH: [&str; 7] = ["sbmul", "sb128", "seq_sb128", "w", "h", "level", "tier"];

/// The names of a limit's numbers, which a kind without a limit has not.
const LIMIT: [&str; 2] = ["max_cols", "max_rows"];

/// The names of a kind's arguments.
fn arg_names(kind: Kind) -> Vec<String> {
    let plain = |list: &[&str]| list.iter().map(ToString::to_string).collect::<Vec<_>>();
    let layout = |prefix: &str| {
        tile_names()
            .iter()
            .map(|name| format!("{prefix}{name}"))
            .collect::<Vec<_>>()
    };
    match kind {
        Kind::GetBits | Kind::GetSbits => plain(&["n"]),
        Kind::GetUniform => plain(&["max"]),
        Kind::GetRefUniform => plain(&["max", "def"]),
        Kind::GetGolomb => plain(&["k"]),
        Kind::GetBitsSubexpU => plain(&["ref_val", "n", "k"]),
        Kind::GetBitsSubexp => plain(&["ref_val", "n"]),
        Kind::ParseSeqHdr => plain(&["strict"]),
        Kind::ParseFilmGrainData => plain(&["layout"]),
        Kind::ParseSegInfo => [seg_names(), plain(&["ext"])].concat(),
        Kind::ParseTileInfo | Kind::ParseTileInfoWithin => {
            [layout("given "), plain(&READ_WITH), plain(&LIMIT)].concat()
        }
        Kind::WriteTileInfo => [
            layout(""),
            plain(&READ_WITH),
            plain(&["buffer's length", "buffer's first byte"]),
        ]
        .concat(),
        Kind::ParseTileInfoFrmhdr | Kind::ParseTileInfoFrmhdrWithin => [
            plain(&["frame_type", "width", "height", "sb128"]),
            layout("given "),
            plain(&[
                "seq_sb128",
                "max_width",
                "max_height",
                "level",
                "tier",
                "present",
            ]),
            layout("sequence's "),
            plain(&LIMIT),
        ]
        .concat(),
        Kind::TileRectangles => [
            layout(""),
            plain(&[
                "code",
                "width",
                "height",
                "buffer's length",
                "buffer's first number",
            ]),
        ]
        .concat(),
        Kind::Callers => plain(&["caller", "argument"]),
        _ => vec![],
    }
}

/// The case itself. Numbers of a record that are 0 are left out.
fn describe(case: &Case) -> String {
    let mut text = String::new();
    let bytes: Vec<String> = case.data.iter().map(|b| format!("{b:02X}")).collect();
    let place = case.place;
    text += &format!(
        "{}\n  data ({} bytes): {}\n  place: byte {}, used {}, error {}\n",
        case.kind.name(),
        bytes.len(),
        bytes.join(" "),
        place.byte,
        place.used,
        u32::from(place.error)
    );
    if case.kind == Kind::Rows {
        for call in case.args.chunks_exact(4) {
            let name = Kind::ALL[call[0] as usize].name();
            text += &format!("  call: {name} {:?}\n", &call[1..]);
        }
        return text;
    }
    if case.kind == Kind::Callers {
        text += &format!("  {}\n", oracle::CALLERS[case.args[0] as usize]);
    }
    let all = case.args.len() <= FEW;
    for (name, &number) in arg_names(case.kind).iter().zip(&case.args) {
        if all || number != 0 {
            text += &format!("  {name}: {number}\n");
        }
    }
    text
}
