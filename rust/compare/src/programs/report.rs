//! What a run of the programs prints: a table of counts, and a difference in full.

use super::{Difference, Program, Tally};
use crate::report::grouped;
use std::fmt::Write;

/// As many zeros in a row are told by their number.
const MANY: usize = 32;

/// The counts of all programs, as a table in Markdown.
pub fn summary(tallies: &[(Program, Tally)]) -> String {
    let mut text =
        String::from("| program | inputs | accepted | 1 | 2 | 3 | 4 | 5 | 6 | 7 | 8 |\n");
    writeln!(text, "|---|{}", "---:|".repeat(10)).unwrap();
    for (program, tally) in tallies {
        let counts = [tally.inputs, tally.accepted]
            .into_iter()
            .chain(tally.refused);
        let counts: Vec<String> = counts.map(grouped).collect();
        writeln!(text, "| {} | {} |", program.name(), counts.join(" | ")).unwrap();
    }
    let all: u64 = tallies.iter().map(|(_, tally)| tally.inputs).sum();
    let told: u64 = tallies.iter().map(|(_, tally)| tally.told).sum();
    writeln!(
        text,
        "\n{} inputs in all. Of `vectors` an input is a list of stored answers, accepted where all agree; {} lists have wrong ones.",
        grouped(all),
        grouped(told)
    )
    .unwrap();
    text
}

/// An input of which a program printed something else.
pub fn difference(program: Program, difference: &Difference) -> String {
    let Difference {
        input,
        expected,
        printed,
    } = difference;
    let mut text = format!(
        "{}\n  input ({} bytes): {}\n  {}\n",
        program.name(),
        grouped(input.len() as u64),
        hex(input),
        command(program, input)
    );
    let got = String::from_utf8_lossy(&printed.output);
    let at = expected
        .text
        .split('\n')
        .zip(got.split('\n'))
        .take_while(|(wanted, got)| wanted == got)
        .count();
    if expected.text != got {
        let line = |text: &str| {
            text.split('\n')
                .nth(at)
                .map_or("nothing".to_string(), str::to_string)
        };
        writeln!(text, "  line {} expected: {}", at + 1, line(&expected.text)).unwrap();
        writeln!(text, "  line {} printed : {}", at + 1, line(&got)).unwrap();
    }
    if !printed.errors.is_empty() {
        let errors = String::from_utf8_lossy(&printed.errors);
        writeln!(text, "  on standard error: {}", errors.trim_end()).unwrap();
    }
    if printed.status != Some(0) {
        let status = printed
            .status
            .map_or("a signal".to_string(), |status| format!("status {status}"));
        writeln!(text, "  it ended with {status}").unwrap();
    }
    text
}

/// An input part by part: bytes, and rows of many zeros.
fn parts(input: &[u8]) -> Vec<&[u8]> {
    let mut parts = Vec::new();
    let (mut from, mut at) = (0, 0);
    while at < input.len() {
        let zeros = input[at..].iter().take_while(|&&byte| byte == 0).count();
        if zeros >= MANY {
            parts.extend([&input[from..at], &input[at..at + zeros]]);
            from = at + zeros;
        }
        at += zeros.max(1);
    }
    parts.push(&input[from..]);
    parts.retain(|part| !part.is_empty());
    parts
}

/// Whether a part is a row of many zeros.
fn are_zeros(part: &[u8]) -> bool {
    part.len() >= MANY && part.iter().all(|&byte| byte == 0)
}

fn hex(input: &[u8]) -> String {
    let part = |part: &[u8]| {
        if are_zeros(part) {
            return format!("{} zeros", grouped(part.len() as u64));
        }
        let bytes: Vec<String> = part.iter().map(|byte| format!("{byte:02X}")).collect();
        bytes.join(" ")
    };
    let words: Vec<String> = parts(input).into_iter().map(part).collect();
    words.join(", ")
}

/// A line that runs the program on the input.
fn command(program: Program, input: &[u8]) -> String {
    let part = |part: &[u8]| {
        if are_zeros(part) {
            return format!("head -c {} /dev/zero", part.len());
        }
        let bytes: String = part.iter().map(|byte| format!("\\x{byte:02X}")).collect();
        format!("printf '{bytes}'")
    };
    let parts: Vec<String> = parts(input).into_iter().map(part).collect();
    let writes = match &parts[..] {
        [] => "printf ''".to_string(),
        [one] => one.clone(),
        _ => format!("({})", parts.join("; ")),
    };
    match program {
        Program::Vectors => format!("{writes} > answers; vectors"),
        _ => format!("{writes} | ./run {}", program.name()),
    }
}

#[cfg(test)]
mod tests {
    use super::*;

    #[test]
    fn an_input_is_shown_as_a_command() {
        let shown = |input: &[u8]| (hex(input), command(Program::Tile, input));
        let pair = |hex: &str, command: &str| (hex.to_string(), format!("{command} | ./run tile"));
        assert_eq!(shown(&[]), pair("", "printf ''"));
        assert_eq!(shown(&[63, 0]), pair("3F 00", "printf '\\x3F\\x00'"));
        assert_eq!(shown(&[0; 40]), pair("40 zeros", "head -c 40 /dev/zero"));
        let long = [&[5, 0, 7][..], &[0; 40], &[9]].concat();
        assert_eq!(
            shown(&long),
            pair(
                "05 00 07, 40 zeros, 09",
                "(printf '\\x05\\x00\\x07'; head -c 40 /dev/zero; printf '\\x09')"
            )
        );
    }
}
