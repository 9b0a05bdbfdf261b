//! The file of stored answers: a row of cases, each with its outcome.
//!
//! A case is its length in bytes (two bytes, the low one first), then numbers in uleb128: the kind; how many data
//! bytes, and these bytes as they are; three rows of numbers: the place's position in bits and its error, the arguments,
//! and the outcome. A row is how many numbers it has, and these; a 0 in it is followed by how many further zeros follow. A
//! number below 0 is stored with 2^32 added. Arguments are those of the kind, then the lengths of the lent buffers, then the
//! limit of a kind that has one. An outcome is the value or the answer's number, the position and the error after it, and the
//! record that comes back.

use crate::case::{Case, Outcome, Place};
use crate::kind::Kind;
use crate::records::{GRAIN, HEADER, TILE};

/// The longest case that the list may hold.
const LONGEST: usize = 60_000;
/// The most numbers that a row may have.
const MOST: usize = 512;

/// A case and its outcome, as numbers.
#[derive(Debug, Clone, PartialEq)]
pub struct Stored {
    pub case: Case,
    pub outcome: Vec<u32>,
}

/// An outcome as it is stored.
pub fn numbers(case: &Case, outcome: &Outcome) -> Vec<u32> {
    let place = outcome.place;
    let mut numbers = vec![outcome.answer as u32];
    match case.kind {
        // These don't move the reader, and the bytes that remain follow from their number.
        Kind::Positions => numbers.push(outcome.record[0] as u32),
        Kind::TileRectangles | Kind::WriteTileInfo => {}
        _ => numbers.extend([place.bits() as u32, place.error.into()]),
    }
    match case.kind {
        Kind::Positions => {}
        // A refused header answers the zero record, and so do refused film grain parameters.
        Kind::ParseSeqHdr if outcome.record.is_empty() => numbers.resize(3 + HEADER, 0),
        Kind::ParseFilmGrainData if outcome.record.is_empty() => numbers.resize(3 + GRAIN, 0),
        // The count of bits and all bytes lent; what they read as is not stored.
        Kind::WriteTileInfo => {
            let lent = 1 + case.args[TILE + 7] as usize;
            numbers.extend(outcome.record[..lent].iter().map(|&number| number as u32));
        }
        _ => numbers.extend(outcome.record.iter().map(|&number| number as u32)),
    }
    numbers
}

/// The file's bytes.
pub fn file(list: &[Stored]) -> Vec<u8> {
    let mut file = Vec::new();
    for stored in list {
        let bytes = case_bytes(stored);
        assert!(bytes.len() <= LONGEST, "a case of {} bytes", bytes.len());
        file.extend((bytes.len() as u16).to_le_bytes());
        file.extend(bytes);
    }
    file
}

fn case_bytes(stored: &Stored) -> Vec<u8> {
    let case = &stored.case;
    let mut out = Vec::new();
    uleb128(&mut out, case.kind.number());
    uleb128(&mut out, case.data.len() as u64);
    out.extend(&case.data);
    row(
        &mut out,
        &[case.place.bits() as u32, case.place.error.into()],
    );
    let (args, limit) = case.args.split_at(case.args.len() - limits(case.kind));
    let args: Vec<u32> = args
        .iter()
        .chain(lengths(case))
        .chain(limit)
        .map(|&arg| arg as u32)
        .collect();
    row(&mut out, &args);
    row(&mut out, &stored.outcome);
    out
}

/// How many arguments of a kind are a limit, which stands behind the lengths.
fn limits(kind: Kind) -> usize {
    if kind.is_limited() { 2 } else { 0 }
}

/// The lengths of the lent buffers.
fn lengths(case: &Case) -> &[i64] {
    if case.lent.is_empty() {
        case.kind.full_lengths()
    } else {
        &case.lent
    }
}

fn row(out: &mut Vec<u8>, numbers: &[u32]) {
    assert!(numbers.len() <= MOST, "a row of {} numbers", numbers.len());
    uleb128(out, numbers.len() as u64);
    let mut rest = numbers;
    while let Some((&number, after)) = rest.split_first() {
        uleb128(out, number.into());
        rest = after;
        if number == 0 {
            let zeros = rest.iter().take_while(|&&number| number == 0).count();
            uleb128(out, zeros as u64);
            rest = &rest[zeros..];
        }
    }
}

fn uleb128(out: &mut Vec<u8>, mut number: u64) {
    while number >= 0x80 {
        out.push(number as u8 | 0x80);
        number >>= 7;
    }
    out.push(number as u8);
}

/// The cases of a file.
///
/// # Panics
///
/// If the file is none of stored answers.
pub fn list(file: &[u8]) -> Vec<Stored> {
    let mut list = Vec::new();
    let mut rest = file;
    while let Some((len, after)) = rest.split_first_chunk() {
        let (bytes, next) = after.split_at(usize::from(u16::from_le_bytes(*len)));
        list.push(Numbers(bytes).stored());
        rest = next;
    }
    list
}

/// The numbers of a case that are still to be taken.
struct Numbers<'a>(&'a [u8]);

impl Numbers<'_> {
    fn uleb128(&mut self) -> u64 {
        let len = 1 + self.0.iter().take_while(|&&byte| byte >= 0x80).count();
        let (bytes, rest) = self.0.split_at(len);
        self.0 = rest;
        bytes
            .iter()
            .rev()
            .fold(0, |number, &byte| number << 7 | u64::from(byte & 0x7F))
    }

    fn row(&mut self) -> Vec<u32> {
        let len = self.uleb128() as usize;
        let mut row = Vec::new();
        while row.len() < len {
            let number = self.uleb128() as u32;
            row.push(number);
            if number == 0 {
                row.resize(row.len() + self.uleb128() as usize, 0);
            }
        }
        row
    }

    fn stored(mut self) -> Stored {
        let kind = Kind::ALL[self.uleb128() as usize];
        let len = self.uleb128() as usize;
        let (data, rest) = self.0.split_at(len);
        self.0 = rest;
        let place = self.row();
        let row = self.row();
        let full = kind.full_lengths();
        let (row, limit) = row.split_at(row.len() - limits(kind));
        let (args, lent) = row.split_at(row.len() - full.len());
        let args = [args, limit].concat();
        let lent: Vec<i64> = lent.iter().map(|&len| len.into()).collect();
        Stored {
            case: Case {
                kind,
                data: data.to_vec(),
                place: Place {
                    error: place[1] != 0,
                    ..Place::behind(place[0] as usize)
                },
                args: signed_args(kind, &args),
                lent: if lent == full { vec![] } else { lent },
            },
            outcome: self.row(),
        }
    }
}

/// Arguments as they were: where a number may be below 0, one from 2^31 on stands for itself less 2^32.
fn signed_args(kind: Kind, args: &[u32]) -> Vec<i64> {
    args.iter()
        .enumerate()
        .map(|(i, &arg)| {
            if is_signed(kind, i) {
                i64::from(arg as i32)
            } else {
                i64::from(arg)
            }
        })
        .collect()
}

fn is_signed(kind: Kind, i: usize) -> bool {
    match kind {
        Kind::GetUniform | Kind::GetRefUniform | Kind::GetGolomb => false,
        // The width and the height.
        Kind::TileRectangles => [TILE + 1, TILE + 2].contains(&i),
        Kind::GetBitsSubexpU => i == 2,
        Kind::GetBitsSubexp => i == 0,
        _ => true,
    }
}
