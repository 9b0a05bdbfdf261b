// Ours, behind the Rust's items: its own callers of the reader, each with all that it answers as text.
pub mod callers {
    use super::*;
    use std::fmt::Write;

    pub const NAMES: [&str; 8] = [
        "parse_cll",
        "parse_mdcv",
        "parse_ci_hdr",
        "parse_film_grain_data",
        "parse_fgm_hdr",
        "parse_seg_info",
        "parse_tile_info",
        "parse_seq_hdr",
    ];

    /// Caller `which` on a reader; `n` is its pixel layout, its segments, its superblock code or its strictness.
    pub fn call(which: usize, n: usize, gb: &mut GetBits, out: &mut String) {
        let written = match which {
            0 => write!(out, "{:?}", parse_cll(gb)),
            1 => write!(out, "{:?}", parse_mdcv(gb)),
            2 => {
                let mut ci = ContentInterpretation::default();
                let answer = parse_ci_hdr(&mut ci, gb);
                write!(out, "{answer:?} {ci:?}")
            }
            3 => write!(out, "{:?}", parse_film_grain_data(gb, LAYOUTS[n % 4])),
            4 => write!(out, "{:?}", parse_fgm_hdr(gb, LAYOUTS[n % 4])),
            5 => {
                let mut seg = SegmentationDataSet::default();
                parse_seg_info(&mut seg, gb, 8 << (n % 2));
                write!(out, "{seg:?}")
            }
            6 => {
                let code = n as u8 % 3;
                let mut t = TileInfo::default();
                let answer = parse_tile_info(&mut t, gb, 1, code, code, 3000, 2000, 14, 1);
                write!(out, "{answer:?} {t:?}")
            }
            _ => write!(out, "{:?}", parse_seq_hdr(gb, n % 2 == 1)),
        };
        written.unwrap();
    }
}
