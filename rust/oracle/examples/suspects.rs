//! What the Rust does where the AV2 specification may say otherwise (docs/DIFFERENCES.md): a line for each, with the smallest input.

use oracle::Reader;
use oracle::headers::{AdaptiveBoolean, FrameHeader, FrameType, SequenceHeader, TileInfo};

/// A header in hex, read as far as the film grain flag or, strict, with the trailing bit: its record, and the bits used.
fn header(hex: &str, strict: bool) -> (SequenceHeader, usize) {
    let data: Vec<u8> = hex
        .split(' ')
        .map(|byte| u8::from_str_radix(byte, 16).expect("two hex digits"))
        .collect();
    let mut gb = Reader::new(&data);
    let hdr = gb.parse_seq_hdr(strict).expect("an accepted header");
    (hdr, bits(&gb))
}

fn bits(gb: &Reader) -> usize {
    let (byte, used, _) = gb.place();
    8 * byte + used as usize
}

/// A sequence of so many samples across, in superblocks of 256, whose frames reuse its one tile.
fn sequence(max_width: i32) -> SequenceHeader {
    let mut seqhdr = SequenceHeader {
        sb128: 2,
        max_width,
        max_height: 1,
        ..Default::default()
    };
    Reader::new(&[])
        .parse_tile_info(&mut seqhdr.tiling.t, 1, 2, 2, max_width, 1, 0, 0)
        .expect("an accepted layout");
    seqhdr.tiling.present = AdaptiveBoolean::On;
    seqhdr
}

fn frame(seqhdr: &SequenceHeader, frame_type: FrameType, width: i32, height: i32) -> TileInfo {
    let mut hdr = FrameHeader {
        frame_type,
        width,
        height,
        ..Default::default()
    };
    Reader::new(&[])
        .parse_tile_info_frmhdr(&mut hdr, seqhdr)
        .expect("an accepted frame");
    hdr.tiling.t
}

fn main() {
    let mut gb = Reader::new(&[0; 4]);
    println!("32 zeros: {} in {} bits", gb.get_vlc(), bits(&gb));
    let extension = header("82 05 00 00 00 80 10 06", true).1;
    println!("extension bit 1: accepted in {extension} bits");
    let behind = header("82 05 00 00 00 80 10 03", true).1;
    println!("a one behind the trailing bit: accepted in {behind} bits");
    let profile = header("A2 05 00 00 00 80 10 00", false).0.profile;
    println!("profile {profile}: accepted");
    for hex in [
        "80 05 04 00 01 00 00 01 00 00 00 00 02 08 00",
        "80 05 04 00 00 00 00 01 00 00 00 00 02 08 00",
    ] {
        let (hdr, used) = header(hex, false);
        println!(
            "layers up to {}, dependencies sent {}: {} of the last, in {used} bits",
            hdr.max_tlayer_id, hdr.tlayer_dependency_present, hdr.tlayer_dependencies[1]
        );
    }
    let uvac = header("82 0C 00 00 00 40 01 00 00", false).0.base_uvac_dq;
    println!("chroma's five bits 0: base_uvac_dq {uvac}");
    let hbd = header("82 04 01 01 00 00 00 80 10 00", false).0.hbd;
    println!("bit-depth index 256: hbd {hbd}");
    let id = header("00 80 82 05 00 00 00 80 10 00", false).0.id;
    println!("id 256: id {id}");
    let tiles = header("82 05 75 FF FC 00 08 01 01 62", false).0;
    let reused = frame(&tiles, FrameType::Inter, 192, 64);
    println!("3 superblocks, 0 2 4 reused: closed by {}", reused.col_start_sb[2]);
    let own = frame(&sequence(129), FrameType::Key, 129, 1);
    println!("a key frame as large as its sequence: {} columns of its own", own.cols);
    let mut t = TileInfo::default();
    let mut gb = Reader::new(&[]);
    let answer = gb.parse_tile_info(&mut t, 1, 0, 0, 65, 1, 0, 0);
    println!("no data: {answer:?}, {} columns, error {}", t.cols, gb.place().2);
}
