//! The readings of document 01.

use crate::bits::BitWriter;
use crate::case::Case;
use crate::kind::Kind;
use crate::records::TILE;

/// The readings of document 01, those to be proved and the others.
pub fn readings() -> Vec<Case> {
    let mut list = vec![
        layout([1, 0, 0], 256, 128, &[0x28]),
        layout([1, 0, 0], 320, 64, &[0xE0]),
        layout([1, 0, 0], 320, 64, &[0xF0]),
        layout([1, 0, 0], 330, 64, &[0xE0]),
        layout([2, 1, 2], 600, 128, &[0xC0]),
        layout([1, 0, 0], 4032, 4672, &[0x80]),
        layout([1, 0, 0], 4096, 64, &[]),
        layout([1, 0, 0], 4160, 64, &[]),
    ];
    let mut small = vec![0x82, 0x05, 0x00, 0x00, 0x00, 0x80, 0x10, 0x02];
    list.push(header(small.clone(), true));
    *small.last_mut().unwrap() = 0x00;
    list.push(header(small.clone(), true));
    list.push(header(small.clone(), false));
    small.pop();
    list.extend([header(small.clone(), true), header(small, false)]);
    list.extend([header(vec![], true), header(vec![], false)]);
    for profile in [8, 31, 9, 30] {
        list.push(header(reduced_header(profile, 0, 23), true));
    }
    for depth in [2, 256, 3] {
        list.push(header(reduced_header(0, depth, 23), true));
    }
    for five_bits in [0, 23, 31] {
        list.push(header(reduced_header(0, 0, five_bits), true));
    }
    list.push(reused_frame());
    list
}

fn layout(pair: [i64; 3], width: i64, height: i64, data: &[u8]) -> Case {
    let mut args = vec![0; TILE];
    args.extend(pair);
    args.extend([width, height, 0, 0]);
    Case {
        data: data.to_vec(),
        args,
        ..Case::of(Kind::ParseTileInfo)
    }
}

fn header(data: Vec<u8>, strict: bool) -> Case {
    Case {
        data,
        args: vec![strict.into()],
        ..Case::of(Kind::ParseSeqHdr)
    }
}

/// A reduced 4:2:0 header of one sample, all other fields 0 but `equal_ac_dc_q`.
fn reduced_header(profile: u64, depth: u64, uvac: u64) -> Vec<u8> {
    let mut w = BitWriter::default();
    w.vlc(0); // id
    w.bits(profile, 5);
    w.bits(0b1_00000, 6); // reduced, level
    w.vlc(0); // layout
    w.vlc(depth);
    w.bits(0, 8 + 2 + 1); // sizes, crop
    w.bits(0, 2 + 1 + 1 + 1 + 2); // partition, segmentation
    w.bits(0, 8); // intra
    w.bits(0, 3 + 1 + 1 + 1); // reference motion vectors, bawp
    w.bits(0, 4 + 3 + 2); // transform, entropy
    w.bits(0b01, 2); // separate_uv_delta_q, equal_ac_dc_q
    w.bits(uvac, 5);
    w.bits(0, 1);
    w.bits(0, 5 + 2); // filters
    w.bits(0b0001, 4); // tiling, film grain, extension, trailing bit
    w.into_bytes()
}

/// A sequence 256 wide, uniform, 0 2 4, tiling on; an inter frame 192 wide.
fn reused_frame() -> Case {
    let mut args = vec![1, 192, 64, 0];
    args.extend([0; TILE]);
    args.extend([0, 256, 64, 0, 0, 1]);
    let mut t = [0; TILE];
    t[..9].copy_from_slice(&[1, 0, 2, 1, 2, 0, 0, 0, 1]);
    t[9..12].copy_from_slice(&[0, 2, 4]);
    t[75] = 1;
    args.extend(t);
    Case {
        args,
        ..Case::of(Kind::ParseTileInfoFrmhdr)
    }
}
