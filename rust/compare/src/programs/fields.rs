//! The records that seqhdr and grain print: a line for each field in the order of the Rust's declaration.

use super::answer::{Answer, MOST, place, row};
use crate::case::{Case, Outcome};
use crate::kind::Kind;
use crate::records::{grain_names, header_names};
use crate::rules::expected;
use oracle::headers::{FilmGrainData, SequenceHeader};
use std::fmt::{Debug, Write};
use std::ops::Range;
use std::sync::LazyLock;

/// A field's name, and where its values stand in the row of the record.
type Field = (String, Range<usize>);

static HEADER: LazyLock<Vec<Field>> = LazyLock::new(|| fields::<SequenceHeader>(&header_names()));
static GRAIN: LazyLock<Vec<Field>> = LazyLock::new(|| fields::<FilmGrainData>(&grain_names()));

pub fn seqhdr(input: &[u8]) -> Answer {
    read(Kind::ParseSeqHdr, 1, input, &HEADER)
}

pub fn grain(input: &[u8]) -> Answer {
    read(Kind::ParseFilmGrainData, 3, input, &GRAIN)
}

/// The first byte, of at most `most`, is the argument, and the rest is read.
fn read(kind: Kind, most: u8, input: &[u8], fields: &[Field]) -> Answer {
    if input.is_empty() || input.len() > MOST || input[0] > most {
        return Answer::refused(4);
    }
    let case = Case {
        data: input[1..].to_vec(),
        args: vec![input[0].into()],
        ..Case::of(kind)
    };
    let mut out = Outcome::default();
    expected(&case, &mut out);
    let next = place(out.place);
    if out.answer != 0 {
        return Answer {
            number: out.answer,
            text: format!("no {} {next}\n", out.answer),
        };
    }
    let mut text = format!("ok {next}\n");
    for (name, values) in fields {
        writeln!(text, "{name} {}", row(&out.record[values.clone()])).unwrap();
    }
    Answer::accepted(text)
}

/// The fields of a record, whose numbers have names, in the order of declaration.
fn fields<Record: Default + Debug>(names: &[String]) -> Vec<Field> {
    let is_of = |name: &str, field: &str| name.split('[').next() == Some(field);
    declared(&format!("{:?}", Record::default()))
        .into_iter()
        .map(|field| {
            let from = names.iter().position(|name| is_of(name, &field));
            let from = from.unwrap_or_else(|| panic!("no number is named {field}"));
            let count = names[from..].iter().take_while(|name| is_of(name, &field));
            let values = from..from + count.count();
            (field, values)
        })
        .collect()
}

/// The names of a record's fields as the Rust declares them, which is the order of its debug text; one inside another has a dot
/// between.
fn declared(debug: &str) -> Vec<String> {
    let mut names = Vec::new();
    let mut outer: Vec<&str> = Vec::new();
    let mut words = debug.split_whitespace().peekable();
    while let Some(word) = words.next() {
        if let Some(name) = word.strip_suffix(':') {
            outer.push(name);
            let is_record = words.next().is_some() && words.peek() == Some(&"{");
            if !is_record {
                names.push(outer.join("."));
                outer.pop();
            }
        } else if word.starts_with('}') {
            outer.pop();
        }
    }
    names
}

#[cfg(test)]
mod tests {
    use super::*;
    use crate::records::{GRAIN as GRAIN_NUMBERS, HEADER as HEADER_NUMBERS};

    #[test]
    fn fields_stand_as_the_rust_declares_them() {
        let text = "A { a: 0, b: B { c: [1, 2], d: Off }, e: [[1, 2], [3]], f: true }";
        assert_eq!(declared(text), ["a", "b.c", "b.d", "e", "f"]);
    }

    #[test]
    fn each_number_is_printed_once() {
        for (fields, numbers) in [(&HEADER, HEADER_NUMBERS), (&GRAIN, GRAIN_NUMBERS)] {
            let mut printed: Vec<usize> = fields
                .iter()
                .flat_map(|(_, values)| values.clone())
                .collect();
            printed.sort_unstable();
            assert_eq!(printed, (0..numbers).collect::<Vec<_>>());
        }
    }
}
