//! What each program has to print.

use super::{Program, drawing, fields, stored};
use crate::case::{Case, Limit, Outcome, Place};
use crate::kind::Kind;
use crate::make::within::PANEL;
use crate::records::TILE;
use crate::rules::expected;
use crate::{cleared, theirs, within};
use oracle::headers::SequenceHeader;
use std::fmt::Write;

/// The most bytes of an input; of panel's, rects' and draw's behind the first one, of over's behind the record.
pub const MOST: usize = 65_536;
/// The bytes of a layout's record.
pub const RECORD: usize = 269;
/// The numbers of as many rectangles as a layout can have.
const ROOM: i64 = 4 * 64 * 64;
/// The handheld panel's limit.
const LIMIT: Limit = Limit {
    cols: PANEL[0],
    rows: PANEL[1],
};

/// A text, and the number of the answer that it tells; of stored answers 0 where all agree.
#[derive(Debug, Clone, PartialEq)]
pub struct Answer {
    pub number: i64,
    pub text: String,
}

impl Answer {
    pub fn refused(number: i64) -> Self {
        Self {
            number,
            text: format!("no {number}\n"),
        }
    }

    pub fn accepted(text: String) -> Self {
        Self { number: 0, text }
    }

    fn of(outcome: &Outcome, text: impl FnOnce(&Outcome) -> String) -> Self {
        match outcome.answer {
            0 => Self::accepted(text(outcome)),
            refusal => Self::refused(refusal),
        }
    }
}

/// What a program has to print of an input.
pub fn answer(program: Program, input: &[u8]) -> Answer {
    match program {
        Program::Tile => tile(input, None),
        Program::Seqhdr => fields::seqhdr(input),
        Program::Frame => frame(input, None),
        Program::Panel => either(
            input,
            |rest| tile(rest, Some(LIMIT)),
            |rest| frame(rest, Some(LIMIT)),
            || Answer::refused(4),
        ),
        Program::Rects => either(input, tile_rects, frame_rects, || Answer::refused(4)),
        Program::Draw => either(input, draw_tile, draw_frame, || {
            drawn_refusal("no first byte of 0 or 1", 4)
        }),
        Program::Write => write(input),
        Program::Over => over(input),
        Program::Grain => fields::grain(input),
        Program::Vectors => stored::answer(input),
    }
}

/// A first byte of 0 means the input of tile, one of 1 that of frame; none, or another, is refused.
fn either(
    input: &[u8],
    tile: impl FnOnce(&[u8]) -> Answer,
    frame: impl FnOnce(&[u8]) -> Answer,
    refused: impl FnOnce() -> Answer,
) -> Answer {
    match input.split_first() {
        Some((0, rest)) => tile(rest),
        Some((1, rest)) => frame(rest),
        _ => refused(),
    }
}

/// A number of two bytes, the low one first.
fn two(input: &[u8], at: usize) -> i64 {
    i64::from(u16::from_le_bytes([input[at], input[at + 1]]))
}

/// Numbers with one blank between.
pub fn row(numbers: &[i64]) -> String {
    let words: Vec<String> = numbers.iter().map(ToString::to_string).collect();
    words.join(" ")
}

/// Bits used, reader error.
pub fn place(place: Place) -> String {
    format!("{} {}", place.bits(), u8::from(place.error))
}

/// Of a request: multiplier, codes, width, height, level, tier. Only the pair (1,2) has multiplier 2.
fn request(input: &[u8]) -> [i64; 7] {
    let [frame, seq, level, tier] = [4, 5, 6, 7].map(|at| i64::from(input[at]));
    let multiplier = if (frame, seq) == (1, 2) { 2 } else { 1 };
    let (w, h) = (two(input, 0) + 1, two(input, 2) + 1);
    [multiplier, frame, seq, w, h, level, tier]
}

/// The reading of tile's input over a record, within a limit if there is one.
fn tile_read(given: &[i64], input: &[u8], limit: Option<Limit>) -> Outcome {
    let mut out = Outcome::default();
    if !(8..=MOST).contains(&input.len()) {
        out.answer = 4;
        return out;
    }
    let mut case = Case {
        data: input[8..].to_vec(),
        args: [given, &request(input)].concat(),
        ..Case::of(Kind::ParseTileInfo)
    };
    if let Some(limit) = limit {
        case.kind = Kind::ParseTileInfoWithin;
        case.args.extend([limit.cols, limit.rows]);
    }
    expected(&case, &mut out);
    out
}

fn tile(input: &[u8], limit: Option<Limit>) -> Answer {
    let read = tile_read(&[0; TILE], input, limit);
    Answer::of(&read, |read| {
        let t = &read.record;
        format!(
            "ok {} {} {} {}\n{}\n{}\n",
            uniform(t),
            t[4],
            t[8],
            place(read.place),
            row(&t[9..=9 + t[4] as usize]),
            row(&t[74..=74 + t[8] as usize])
        )
    })
}

/// U or N.
fn uniform(t: &[i64]) -> char {
    if t[0] != 0 { 'U' } else { 'N' }
}

/// A layout with all its starts and its logarithms, as frame and over print it.
fn whole(t: &[i64], next: Place, code: i64) -> String {
    format!(
        "ok {} {} {} {} {code}\n{}\n{}\n{} {}\n",
        uniform(t),
        t[4],
        t[8],
        place(next),
        row(&t[9..74]),
        row(&t[74..]),
        row(&t[1..4]),
        row(&t[5..8])
    )
}

/// A frame that was read: its code and its layout, and what it was read for.
struct FrameRead {
    outcome: Outcome,
    width: i64,
    height: i64,
    seqhdr: SequenceHeader,
}

impl FrameRead {
    fn code(&self) -> i64 {
        self.outcome.record[0]
    }

    fn layout(&self) -> &[i64] {
        &self.outcome.record[1..]
    }
}

/// The reading of frame's input, within a limit if there is one, or its refusal.
fn frame_read(input: &[u8], limit: Option<Limit>) -> Result<FrameRead, i64> {
    if !(2..=MOST).contains(&input.len()) {
        return Err(4);
    }
    let behind = 2 + two(input, 0) as usize;
    if input.len() < behind + 5 || input[behind] > 3 {
        return Err(4);
    }
    let (width, height) = (two(input, behind + 1) + 1, two(input, behind + 3) + 1);
    let mut args = vec![i64::from(input[behind]), width, height, 0];
    args.resize(4 + TILE, 0);
    let case = Case {
        data: input[behind + 5..].to_vec(),
        args,
        ..Case::of(Kind::ParseTileInfoFrmhdr)
    };
    let mut outcome = Outcome::default();
    let seqhdr = theirs::frame_over(&input[2..behind], &case, &mut outcome)?;
    cleared::clear(&case, &mut outcome);
    if let Some(limit) = limit {
        within::hold(&case, limit, &mut outcome);
    }
    match outcome.answer {
        0 => Ok(FrameRead {
            outcome,
            width,
            height,
            seqhdr,
        }),
        refusal => Err(refusal),
    }
}

fn frame(input: &[u8], limit: Option<Limit>) -> Answer {
    match frame_read(input, limit) {
        Ok(read) => Answer::accepted(whole(read.layout(), read.outcome.place, read.code())),
        Err(refusal) => Answer::refused(refusal),
    }
}

/// The rectangles of a layout in a frame of a code, a width and a height, or their refusal.
fn rectangles(t: &[i64], code: i64, w: i64, h: i64) -> Result<Vec<[i64; 4]>, i64> {
    let case = Case {
        args: [t, &[code, w, h, ROOM, 0]].concat(),
        ..Case::of(Kind::TileRectangles)
    };
    let mut out = Outcome::default();
    expected(&case, &mut out);
    match out.answer {
        0 => {
            let tiles = out.record.chunks_exact(4).take((t[4] * t[8]) as usize);
            Ok(tiles
                .map(|tile| [tile[0], tile[1], tile[2], tile[3]])
                .collect())
        }
        refusal => Err(refusal),
    }
}

fn rects(tiles: Result<Vec<[i64; 4]>, i64>) -> Answer {
    match tiles {
        Ok(tiles) => {
            let mut text = format!("ok {}\n", tiles.len());
            for tile in tiles {
                writeln!(text, "{}", row(&tile)).unwrap();
            }
            Answer::accepted(text)
        }
        Err(refusal) => Answer::refused(refusal),
    }
}

fn tile_rects(input: &[u8]) -> Answer {
    let read = tile_read(&[0; TILE], input, None);
    if read.answer != 0 {
        return Answer::refused(read.answer);
    }
    let [_, code, _, w, h, ..] = request(input);
    rects(rectangles(&read.record, code, w, h))
}

fn frame_rects(input: &[u8]) -> Answer {
    rects(
        frame_read(input, None)
            .and_then(|read| rectangles(read.layout(), read.code(), read.width, read.height)),
    )
}

fn drawn_refusal(title: &str, number: i64) -> Answer {
    Answer {
        number,
        text: drawing::refusal(title, number),
    }
}

/// Size, codes, level and tier.
fn arguments(w: i64, h: i64, codes: [i64; 2], level: i64, tier: i64) -> String {
    let [frame, seq] = codes;
    format!("{w} x {h}, codes {frame} {seq}, level {level}, tier {tier}")
}

fn drawn(arguments: &str, next: Place, t: &[i64], code: i64, w: i64, h: i64) -> Answer {
    let title = format!(
        "{arguments}, {}, {} bits, error {}",
        uniform(t),
        next.bits(),
        u8::from(next.error)
    );
    match rectangles(t, code, w, h) {
        Ok(tiles) => Answer::accepted(drawing::picture(&title, t, code, w, h, &tiles)),
        Err(refusal) => drawn_refusal(&title, refusal),
    }
}

fn draw_tile(input: &[u8]) -> Answer {
    if input.len() < 8 {
        return drawn_refusal("fewer than 8 bytes", 4);
    }
    let [_, code, seq, w, h, level, tier] = request(input);
    let arguments = arguments(w, h, [code, seq], level, tier);
    let read = tile_read(&[0; TILE], input, None);
    match read.answer {
        0 => drawn(&arguments, read.place, &read.record, code, w, h),
        refusal => drawn_refusal(&arguments, refusal),
    }
}

fn draw_frame(input: &[u8]) -> Answer {
    let read = match frame_read(input, None) {
        Ok(read) => read,
        Err(refusal) => return drawn_refusal("frame", refusal),
    };
    let (w, h, seq) = (read.width, read.height, &read.seqhdr);
    let arguments = arguments(
        w,
        h,
        [read.code(), seq.sb128.into()],
        seq.level.into(),
        seq.tier.into(),
    );
    let next = read.outcome.place;
    drawn(&arguments, next, read.layout(), read.code(), w, h)
}

/// A layout's record in bytes: nine, of which the first is a flag, then the starts, two bytes each.
fn record(bytes: &[u8]) -> Vec<i64> {
    let flag = i64::from(bytes[0] != 0);
    let numbers = bytes[1..9].iter().map(|&byte| i64::from(byte));
    let starts = (9..RECORD).step_by(2).map(|at| two(bytes, at));
    [flag].into_iter().chain(numbers).chain(starts).collect()
}

fn over(input: &[u8]) -> Answer {
    if input.len() < RECORD {
        return Answer::refused(4);
    }
    let (given, input) = input.split_at(RECORD);
    let read = tile_read(&record(given), input, None);
    Answer::of(&read, |read| {
        whole(&read.record, read.place, input[4].into())
    })
}

fn write(input: &[u8]) -> Answer {
    if input.len() != 8 + RECORD + 2 {
        return Answer::refused(4);
    }
    let (head, rest) = input.split_at(8);
    let mut args = record(&rest[..RECORD]);
    args.extend(request(head));
    args.extend([two(rest, RECORD), 0]);
    let case = Case {
        args,
        ..Case::of(Kind::WriteTileInfo)
    };
    let mut out = Outcome::default();
    expected(&case, &mut out);
    Answer::of(&out, |out| {
        let bits = out.record[0];
        let bytes = (bits as usize).div_ceil(8);
        format!("ok {bits}\n{}\n", row(&out.record[1..=bytes]))
    })
}
