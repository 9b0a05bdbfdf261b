//! The inputs of each program: those made by a rule, which has every field at its edges and every length about each boundary,
//! cases of the stored list, and random ones.

mod fields;
mod frames;
mod layouts;
mod tiles;

use super::Program;
use super::answer::MOST;
use super::stored::Lists;
use crate::case::{Case, Place};
use crate::choice;
use crate::kind::Kind;
use crate::make::within;
use crate::rng::Rng;

/// The inputs of a program, by their number.
pub struct Inputs {
    program: Program,
    seed: u64,
    by_rule: Vec<Vec<u8>>,
    random: u64,
    lists: Option<Lists>,
}

impl Inputs {
    /// Those by a rule, as many random ones as are wanted, and no more cases of the stored list than these.
    pub fn of(program: Program, seed: u64, random: u64) -> Self {
        let lists = (program == Program::Vectors).then(|| Lists::new(seed));
        let rng = &mut generator(program, seed, 0);
        let mut by_rule = match program {
            Program::Tile => tiles::by_rule(),
            Program::Seqhdr => fields::headers(rng),
            Program::Frame => frames::by_rule(rng),
            Program::Panel | Program::Rects | Program::Draw => either(rng),
            Program::Write => layouts::to_write(rng),
            Program::Over => layouts::read_over(rng),
            Program::Grain => fields::grain(rng),
            Program::Vectors => lists.iter().flat_map(Lists::by_rule).collect(),
        };
        let chosen = chosen(program, seed);
        let step = chosen.len().div_ceil(random.max(1) as usize).max(1);
        by_rule.extend(chosen.into_iter().step_by(step));
        Self {
            program,
            seed,
            by_rule,
            random,
            lists,
        }
    }

    pub fn count(&self) -> u64 {
        self.by_rule.len() as u64 + self.random
    }

    pub fn input(&self, i: u64) -> Vec<u8> {
        if let Some(input) = self.by_rule.get(i as usize) {
            return input.clone();
        }
        let rng = &mut generator(self.program, self.seed, i + 1);
        if let Some(lists) = &self.lists {
            return lists.random(rng);
        }
        let mut input = random(self.program, rng);
        stretch(rng, &mut input);
        input
    }
}

/// A generator of its own for each input.
fn generator(program: Program, seed: u64, part: u64) -> Rng {
    Rng::of_part(seed, 300 + program.number(), part)
}

fn random(program: Program, rng: &mut Rng) -> Vec<u8> {
    match program {
        Program::Tile => tiles::random(rng),
        Program::Seqhdr => fields::random_header(rng),
        Program::Frame => frames::random(rng),
        Program::Panel | Program::Rects | Program::Draw => random_either(rng),
        Program::Write => layouts::random_to_write(rng),
        Program::Over => layouts::random_over(rng),
        Program::Grain => fields::random_grain(rng),
        Program::Vectors => unreachable!("a list is not made of random bytes"),
    }
}

/// Some inputs are cut anywhere, or made about as long as they may be.
fn stretch(rng: &mut Rng, input: &mut Vec<u8>) {
    match rng.below(400) {
        0..12 => input.truncate(rng.below(input.len() as u64 + 1) as usize),
        12 => {
            let most = MOST as i64 + rng.pick(&[0, 0, 1, 269]);
            let len = most + rng.range(-1, 1);
            input.resize(len as usize, rng.pick(&[0x00, 0xFF, 0xA5]));
        }
        _ => {}
    }
}

/// An input with each number of bytes about each boundary: all shorter ones, and zeros behind it up to as many as there may be, and
/// to more. So many bytes before it don't count.
fn lengths(input: &[u8], before: usize) -> Vec<Vec<u8>> {
    let cut = (0..=input.len()).map(|len| input[..len].to_vec());
    let most = MOST + before;
    let long = [60_000, most - 1, most, most + 1, most + 2, most + 5000];
    cut.chain(long.map(|len| {
        let mut input = input.to_vec();
        input.resize(len, 0);
        input
    }))
    .collect()
}

/// Each of the bytes at its edges.
fn bytes(input: &[u8], at: impl Iterator<Item = usize>) -> Vec<Vec<u8>> {
    at.flat_map(|at| {
        [0, 1, 2, 3, 4, 31, 32, 63, 64, 127, 128, 254, 255].map(|byte| {
            let mut input = input.to_vec();
            input[at] = byte;
            input
        })
    })
    .collect()
}

/// A first byte before an input.
fn behind(first: u8, input: &[u8]) -> Vec<u8> {
    [&[first], input].concat()
}

/// The inputs of panel: 0 and those of tile, or 1 and those of frame; tiles beside the panel's limit; other first bytes.
fn either(rng: &mut Rng) -> Vec<Vec<u8>> {
    let mut list = vec![vec![]];
    let tile = tiles::example();
    let frame = frames::example(rng);
    for input in [behind(0, &tile), behind(1, &frame)] {
        list.extend(bytes(&input, 0..1));
        list.extend(lengths(&input, 1));
    }
    let tiles = [
        tiles::levels(),
        tiles::pairs(),
        tiles::beside_panel(),
        tiles::pictures(),
    ]
    .concat();
    list.extend(tiles.iter().map(|input| behind(0, input)));
    let frames = [
        frames::levels(rng),
        frames::types(rng),
        frames::beside_panel(rng),
    ]
    .concat();
    list.extend(frames.iter().map(|input| behind(1, input)));
    list
}

/// As either, with layouts beside the panel's limit half of the time.
fn random_either(rng: &mut Rng) -> Vec<u8> {
    let mut first = u8::from(rng.percent(60));
    let input = if first == 1 {
        frames::random(rng)
    } else if rng.flag() {
        tiles::random(rng)
    } else {
        let mut case = Case::of(Kind::ParseTileInfoWithin);
        within::layout_case(rng, &mut case);
        tiles::of_case(&case)
    };
    if rng.percent(1) {
        first = rng.byte();
    }
    behind(first, &input)
}

/// The cases of the stored list that a program can be given: those of its operation from the first bit on.
fn chosen(program: Program, seed: u64) -> Vec<Vec<u8>> {
    let (kind, input): (Kind, fn(&Case) -> Vec<u8>) = match program {
        Program::Tile => (Kind::ParseTileInfo, tiles::of_case),
        Program::Over => (Kind::ParseTileInfo, layouts::over_of_case),
        Program::Write => (Kind::WriteTileInfo, layouts::write_of_case),
        Program::Seqhdr => (Kind::ParseSeqHdr, fields::of_case),
        Program::Grain => (Kind::ParseFilmGrainData, fields::of_case),
        _ => return vec![],
    };
    choice::cases(seed)
        .iter()
        .filter(|case| case.kind == kind && case.place == Place::default())
        .map(input)
        .collect()
}
