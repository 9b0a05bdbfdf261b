//! The Rust's reader and functions behind a public face.

use crate::error::TealdustError;
use crate::getbits::GetBits;
use crate::headers::{
    FilmGrainData, FrameHeader, PixelLayout, SegmentationDataSet, SequenceHeader, TileInfo,
};
use crate::obu;

/// The Rust's `GetBits`.
pub struct Reader<'a> {
    gb: GetBits<'a>,
}

macro_rules! reading {
    ($($name:ident($($arg:ident: $type:ty),*) -> $answer:ty;)*) => {
        $(
            #[inline(always)]
            pub fn $name(&mut self $(, $arg: $type)*) -> $answer {
                self.gb.$name($($arg),*)
            }
        )*
    };
}

impl<'a> Reader<'a> {
    #[inline(always)]
    pub fn new(data: &'a [u8]) -> Self {
        Self {
            gb: GetBits::new(data),
        }
    }

    /// A reader that has read its way to a place. A place past the last bit, or with more than 7 bits
    /// used, is the end.
    pub fn at_place(data: &'a [u8], byte: usize, used: u32, error: bool) -> Self {
        let mut reader = Self::new(data);
        let inside = byte < data.len() && used < 8;
        let (bytes, bits) = if inside {
            (byte, used)
        } else {
            (data.len(), 0)
        };
        for _ in 0..bytes / 4 {
            reader.gb.get_bits(32);
        }
        reader.gb.get_bits((bytes % 4 * 8) as i32);
        reader.gb.get_bits(bits as i32);
        if error {
            reader.gb.set_error();
        }
        reader
    }

    /// Document 01's place: the byte reached, the bits of it used, and the error.
    pub fn place(&self) -> (usize, u32, bool) {
        let bits = self.gb.bits_used();
        (bits / 8, (bits % 8) as u32, self.gb.has_error())
    }

    reading! {
        get_bit() -> u32;
        get_bits(n: i32) -> u32;
        get_sbits(n: i32) -> i32;
        get_vlc() -> u32;
        get_uniform(max: u32) -> u32;
        get_ref_uniform(max: u32, def: u32) -> u32;
        get_uleb128() -> u32;
        get_golomb(k: u32) -> u32;
        get_bits_subexp_u(ref_val: u32, n: u32, k: i32) -> u32;
        get_bits_subexp(ref_val: i32, n: u32) -> i32;
        bytealign() -> ();
        byte_pos() -> usize;
        remaining_bytes() -> usize;
        remaining_slice() -> &'a [u8];
    }

    #[inline(always)]
    pub fn parse_seg_info(&mut self, seg: &mut SegmentationDataSet, n_seg: usize) {
        obu::private::parse_seg_info(seg, &mut self.gb, n_seg);
    }

    #[inline(always)]
    #[allow(clippy::too_many_arguments)]
    pub fn parse_tile_info(
        &mut self,
        thdr: &mut TileInfo,
        sbmul: i32,
        sb128: u8,
        seq_sb128: u8,
        w: i32,
        h: i32,
        level: u8,
        tier: u8,
    ) -> Result<(), TealdustError> {
        obu::private::parse_tile_info(
            thdr,
            &mut self.gb,
            sbmul,
            sb128,
            seq_sb128,
            w,
            h,
            level,
            tier,
        )
    }

    #[inline(always)]
    pub fn parse_seq_hdr(&mut self, strict: bool) -> Result<SequenceHeader, TealdustError> {
        obu::parse_seq_hdr(&mut self.gb, strict)
    }

    #[inline(always)]
    pub fn parse_tile_info_frmhdr(
        &mut self,
        hdr: &mut FrameHeader,
        seqhdr: &SequenceHeader,
    ) -> Result<(), TealdustError> {
        obu::parse_tile_info_frmhdr(hdr, seqhdr, &mut self.gb)
    }

    #[inline(always)]
    pub fn parse_film_grain_data(
        &mut self,
        layout: PixelLayout,
    ) -> Result<FilmGrainData, TealdustError> {
        obu::parse_film_grain_data(&mut self.gb, layout)
    }

    /// One of the Rust's callers of the reader, with all that it answers as text.
    pub fn call(&mut self, which: usize, n: usize, out: &mut String) {
        obu::callers::call(which, n, &mut self.gb, out);
    }
}

#[cfg(test)]
mod tests {
    use super::Reader;
    use std::fs;

    /// The Rust's files as they were read.
    fn source(name: &str) -> String {
        fs::read_to_string(std::path::Path::new(crate::FOLDER).join(name)).unwrap()
    }

    #[test]
    fn the_files_are_unchanged() {
        let headers = include_str!(concat!(env!("OUT_DIR"), "/headers.rs"));
        let intops = include_str!(concat!(env!("OUT_DIR"), "/intops.rs"));
        let getbits = include_str!(concat!(env!("OUT_DIR"), "/getbits.rs"));
        assert_eq!(headers, source("headers.rs"));
        assert_eq!(intops, source("intops.rs"));
        assert!(getbits.starts_with(&source("getbits.rs")));
    }

    #[test]
    fn each_item_of_obu_is_unchanged() {
        let taken = include_str!(concat!(env!("OUT_DIR"), "/obu.rs"));
        let (items, _) = taken.split_once("\n// Ours, behind").unwrap();
        let whole = source("obu.rs");
        for function in items.split("\n\n") {
            assert!(whole.contains(function.trim_end()), "{function}");
        }
        assert!(items.contains("pub fn parse_seq_hdr("));
    }

    #[test]
    fn debug_assertions_are_off() {
        let mut reader = Reader::new(&[0xFF; 8]);
        assert_eq!(reader.get_bits(33), 0);
        assert_eq!(reader.place(), (0, 0, true));
    }

    #[test]
    fn a_place_is_reached_by_reading() {
        let data: Vec<u8> = (0..20).collect();
        for byte in 0..20 {
            for used in 0..8 {
                let reader = Reader::at_place(&data, byte, used, false);
                assert_eq!(reader.place(), (byte, used, false));
            }
        }
        assert_eq!(Reader::at_place(&data, 20, 1, true).place(), (20, 0, true));
    }
}
