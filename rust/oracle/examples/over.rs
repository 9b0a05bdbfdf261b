//! over WIDTH HEIGHT BYTE ..: reads layouts by the Rust, one over the other in the same record, and prints the start of its list after each.
//!
//! Superblocks of 64, level 0, tier 0. BYTE is the tiling bits, two hex digits.

use oracle::Reader;
use oracle::headers::TileInfo;

fn main() {
    let words: Vec<String> = std::env::args().skip(1).collect();
    let mut record = TileInfo::default();
    for frame in words.chunks(3) {
        let [width, height, byte] = frame else {
            panic!("over WIDTH HEIGHT BYTE ..");
        };
        let width = width.parse().expect("a width");
        let height = height.parse().expect("a height");
        let byte = u8::from_str_radix(byte, 16).expect("a byte");
        let answer =
            Reader::new(&[byte]).parse_tile_info(&mut record, 1, 0, 0, width, height, 0, 0);
        let starts = record.col_start_sb[..8].iter().map(u16::to_string);
        let starts = starts.collect::<Vec<_>>().join(" ");
        match answer {
            Ok(()) => println!("{} columns: {starts} ..", record.cols),
            Err(refusal) => println!("{refusal:?}: {starts} .."),
        }
    }
}
