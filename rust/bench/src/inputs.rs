//! What the rows read, the same for both libraries and in every run.

use crate::library::{LayoutArgs, Library, Theirs};
use compare::case::{Case, Outcome};
use compare::kind::Kind;
use compare::make;
use compare::records::TILE;
use compare::rng::Rng;

/// Inputs of a row of records.
const RECORDS: usize = 64;

/// A layout to read.
pub struct LayoutInput {
    pub data: Vec<u8>,
    pub args: LayoutArgs,
}

/// A frame to read, with the arguments that both records are made of.
pub struct FrameInput {
    pub data: Vec<u8>,
    pub args: Vec<i64>,
}

/// Film grain parameters to read, and the layout that they are read for.
pub struct GrainInput {
    pub data: Vec<u8>,
    pub layout: i64,
}

pub struct Inputs {
    pub bytes: Vec<u8>,
    pub widths: Vec<i32>,
    pub maxima: Vec<u32>,
    pub uniform: Vec<LayoutInput>,
    pub non_uniform: Vec<LayoutInput>,
    pub headers: Vec<Vec<u8>>,
    pub frames: Vec<FrameInput>,
    pub grain: Vec<GrainInput>,
}

impl Inputs {
    pub fn new() -> Self {
        let mut rng = Rng::new(1);
        Self {
            bytes: (0..8192).map(|_| rng.byte()).collect(),
            widths: (0..1024).map(|_| rng.range(1, 32) as i32).collect(),
            maxima: (0..1024).map(|_| rng.range(2, 1024) as u32).collect(),
            uniform: layouts(&mut rng, true),
            non_uniform: layouts(&mut rng, false),
            headers: headers(&mut rng),
            frames: frames(&mut rng),
            grain: grain(&mut rng),
        }
    }
}

/// Layouts with enough data, of pictures up to 8192 samples across and down.
fn layouts(rng: &mut Rng, uniform: bool) -> Vec<LayoutInput> {
    let mut list = Vec::new();
    while list.len() < RECORDS {
        let [sbmul, frame, seq] = rng.pick(&make::layouts::PAIRS);
        let args = LayoutArgs {
            sbmul: sbmul as i32,
            sb128: frame as u8,
            seq_sb128: seq as u8,
            w: rng.range(64, 8192) as i32,
            h: rng.range(64, 8192) as i32,
            level: rng.range(0, 31) as u8,
            tier: rng.range(0, 1) as u8,
        };
        let mut data: Vec<u8> = (0..128).map(|_| rng.byte()).collect();
        data[0] = data[0] & 0x7F | u8::from(uniform) << 7;
        let mut t = Default::default();
        if Theirs::parse_tile_info(&mut t, &mut Theirs::reader(&data), &args) {
            list.push(LayoutInput { data, args });
        }
    }
    list
}

/// Headers that are accepted.
fn headers(rng: &mut Rng) -> Vec<Vec<u8>> {
    let mut list = Vec::new();
    while list.len() < RECORDS {
        let data = make::header::header(rng);
        if Theirs::parse_seq_hdr(&mut Theirs::reader(&data)).is_some() {
            list.push(data);
        }
    }
    list
}

/// Frames that are accepted, with enough data: some reuse the sequence's layout, some read one.
fn frames(rng: &mut Rng) -> Vec<FrameInput> {
    let mut list = Vec::new();
    let mut case = Case::of(Kind::ParseTileInfoFrmhdr);
    let mut outcome = Outcome::default();
    while list.len() < RECORDS {
        make::make(rng, &mut case, &mut outcome);
        let data: Vec<u8> = (0..128).map(|_| rng.byte()).collect();
        compare::rules::expected(
            &Case {
                data: data.clone(),
                place: Default::default(),
                ..case.clone()
            },
            &mut outcome,
        );
        if outcome.answer == 0 && !outcome.place.error && case.args[1].max(case.args[2]) <= 8192 {
            // A fresh frame: the rows write over it again and again.
            case.args[4..4 + TILE].fill(0);
            list.push(FrameInput {
                data,
                args: case.args.clone(),
            });
        }
    }
    list
}

/// Film grain parameters that are accepted, all of whose planes have points of their own, in the layouts with chroma.
fn grain(rng: &mut Rng) -> Vec<GrainInput> {
    let mut list = Vec::new();
    while list.len() < RECORDS {
        let layout = rng.range(1, 3);
        let counts = [rng.range(2, 14), rng.range(1, 10), rng.range(1, 10)].map(|n| n as u64);
        let wishes = [
            ("from_luma", 0),
            ("y", counts[0]),
            ("u", counts[1]),
            ("v", counts[2]),
        ];
        let data = make::grain::wished(rng, layout, &wishes);
        if Theirs::parse_film_grain_data(&mut Theirs::reader(&data), layout).is_some() {
            list.push(GrainInput { data, layout });
        }
    }
    list
}
