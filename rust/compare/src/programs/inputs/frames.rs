//! The inputs of frame: a sequence header behind its length, a frame's type and size, and tiling bits.

use super::tiles::{BITS, LARGE, SIZES};
use super::{bytes, lengths};
use crate::make::damage::damage;
use crate::make::frames::frame_size;
use crate::make::header::wished;
use crate::make::layouts::{size, tiling_bits};
use crate::make::within::PANEL;
use crate::rng::Rng;
use oracle::Reader;
use oracle::headers::SequenceHeader;

/// Fields of a header that have a value.
type Wishes<'a> = &'a [(&'a str, u64)];

/// Without what is refused, and not in the reduced form, which has no tier.
const GOOD: Wishes<'static> = &[
    ("reduced", 0),
    ("profile", 0),
    ("layout", 0),
    ("depth", 0),
    ("told", 0),
    ("width_bits", 15),
    ("height_bits", 15),
];

/// A header that is accepted, of a size and with some wishes.
fn good(rng: &mut Rng, [w, h]: [i64; 2], wishes: Wishes) -> Vec<u8> {
    let size = [("width", w as u64 - 1), ("height", h as u64 - 1)];
    wished(rng, &[wishes, GOOD, &size].concat())
}

/// A header, a frame of a type and a size, and bits.
fn request(header: &[u8], frame_type: u8, [w, h]: [i64; 2], bits: &[u8]) -> Vec<u8> {
    let mut input = (header.len() as u16).to_le_bytes().to_vec();
    input.extend(header);
    input.push(frame_type);
    for size in [w, h] {
        input.extend((size as u16).wrapping_sub(1).to_le_bytes());
    }
    input.extend(bits);
    input
}

/// An inter frame that reads a layout of its own under a header that has one.
pub fn example(rng: &mut Rng) -> Vec<u8> {
    let header = good(rng, [256, 128], &[("tiling", 1), ("adaptive", 1)]);
    request(&header, 1, [256, 128], &[0x28])
}

/// Each level and tier, in frames so large that each limit shows: with a layout of their own, uniform and not, under a header
/// without a layout and under one with a layout.
pub fn levels(rng: &mut Rng) -> Vec<Vec<u8>> {
    let mut list = Vec::new();
    for level in 0..32 {
        for tier in 0..2 {
            let mut wishes = vec![("level", level), ("tier", tier), ("tiling", 0)];
            let header = good(rng, LARGE, &wishes);
            list.push(request(&header, 1, LARGE, &[0x80]));
            list.push(request(&header, 0, LARGE, BITS[7]));
            wishes[2].1 = 1;
            let header = good(rng, LARGE, &wishes);
            list.push(request(&header, 1, LARGE, &[0x40]));
        }
    }
    list
}

/// Each type, and some that there are not, with each code of the sequence and each way of tiling, four columns and rows where there
/// is room, in frames of the sequence's size, of half of it and of a quarter.
pub fn types(rng: &mut Rng) -> Vec<Vec<u8>> {
    let mut list = Vec::new();
    for code in 0..3 {
        for way in 0..3 {
            let wishes = [
                ("sb256", u64::from(code == 2)),
                ("sb128", u64::from(code == 1)),
                ("tiling", u64::from(way > 0)),
                ("adaptive", u64::from(way == 2)),
                ("tiles", 0xEC_0000),
            ];
            let header = good(rng, [1024; 2], &wishes);
            for frame_type in [0, 1, 2, 3, 4, 255] {
                for size in [[1024; 2], [512; 2], [256; 2]] {
                    list.push(request(&header, frame_type, size, &[0x80]));
                }
            }
        }
    }
    list
}

/// Reused layouts with columns and rows beside the panel's.
pub fn beside_panel(rng: &mut Rng) -> Vec<Vec<u8>> {
    let mut list = Vec::new();
    for cols in PANEL[0] - 1..=PANEL[0] + 2 {
        for rows in PANEL[1] - 1..=PANEL[1] + 2 {
            let size = [64 * cols, 64 * rows];
            for tiles in [0, 0xFF_FFFF] {
                let wishes = [
                    ("sb256", 0),
                    ("sb128", 0),
                    ("tiling", 1),
                    ("adaptive", 0),
                    ("tiles", tiles),
                ];
                let header = good(rng, size, &wishes);
                list.push(request(&header, 1, size, &[]));
            }
        }
    }
    list
}

fn sizes(rng: &mut Rng) -> Vec<Vec<u8>> {
    let header = good(rng, LARGE, &[("tiling", 0)]);
    let both = |size| [[size, 64], [64, size]];
    SIZES
        .into_iter()
        .flat_map(both)
        .map(|size| request(&header, 1, size, &[0x80]))
        .collect()
}

/// A length beside the header's own, where the frame is then looked for, or far from it.
fn header_lengths(input: &[u8]) -> Vec<Vec<u8>> {
    let own = u16::from_le_bytes([input[0], input[1]]);
    let beside = (0..7).map(|n| (own + n).saturating_sub(3));
    beside
        .chain([0, 1, 255, 256, 65_535])
        .map(|len| [&len.to_le_bytes(), &input[2..]].concat())
        .collect()
}

/// A header with so many zeros behind it that the input is as long as it may be, or longer.
fn long_headers(rng: &mut Rng) -> Vec<Vec<u8>> {
    let header = good(rng, [256, 128], &[("tiling", 1)]);
    [60_000, 65_528, 65_529, 65_530, 65_535]
        .map(|len| {
            let mut long = header.clone();
            long.resize(len, 0);
            request(&long, 1, [256, 128], &[])
        })
        .to_vec()
}

pub fn by_rule(rng: &mut Rng) -> Vec<Vec<u8>> {
    let example = example(rng);
    let frame = example.len() - 6;
    [
        lengths(&example, 0),
        bytes(&example, frame..example.len()),
        header_lengths(&example),
        long_headers(rng),
        levels(rng),
        types(rng),
        beside_panel(rng),
        sizes(rng),
    ]
    .concat()
}

/// A header, some of them damaged, and a frame about its size.
pub fn random(rng: &mut Rng) -> Vec<u8> {
    let bits = [rng.range(6, 12), rng.range(6, 12)].map(|n| n as u64);
    let small = [("width_bits", bits[0]), ("height_bits", bits[1])];
    let wishes: Wishes = if rng.percent(70) { &small } else { &[] };
    let mut header = wished(rng, wishes);
    if rng.percent(10) {
        damage(rng, &mut header);
    }
    let size = match Reader::new(&header).parse_seq_hdr(false) {
        Ok(hdr) => about(rng, &hdr),
        Err(_) => [size(rng), size(rng)],
    };
    let frame_type = if rng.percent(98) {
        rng.range(0, 3) as u8
    } else {
        rng.byte()
    };
    let mut bits = Vec::new();
    tiling_bits(rng, &mut bits);
    let mut input = request(&header, frame_type, size, &bits);
    if rng.percent(3) {
        let len = header.len() as i64 + rng.range(-3, 3);
        input[..2].copy_from_slice(&(len.max(0) as u16).to_le_bytes());
    }
    input
}

/// A frame's size about the sequence's.
fn about(rng: &mut Rng, hdr: &SequenceHeader) -> [i64; 2] {
    let [code, uniform] = [hdr.sb128, hdr.tiling.t.uniform.into()].map(i64::from);
    let [w, h] = [hdr.max_width, hdr.max_height].map(i64::from);
    let (w, h) = frame_size(rng, &[code, w, h, 0, 0, 0, uniform]);
    [w, h]
}
