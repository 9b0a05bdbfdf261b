//! The kinds of operation.

#[derive(Debug, Clone, Copy, PartialEq, Eq, Default)]
pub enum Kind {
    #[default]
    GetBit,
    GetBits,
    GetSbits,
    GetVlc,
    GetUniform,
    GetRefUniform,
    GetUleb128,
    GetGolomb,
    GetBitsSubexpU,
    GetBitsSubexp,
    Bytealign,
    ParseTileInfo,
    ParseSeqHdr,
    ParseTileInfoFrmhdr,
    ParseSegInfo,
    /// byte_pos, remaining_bytes and remaining_slice.
    Positions,
    TileRectangles,
    ParseTileInfoWithin,
    ParseTileInfoFrmhdrWithin,
    ParseFilmGrainData,
    WriteTileInfo,
    /// Several readings by one reader.
    Rows,
    /// The Rust's own callers of the reader, over both readers.
    Callers,
}

impl Kind {
    /// In the order of their numbers in the stored list, which has the first 21.
    pub const ALL: [Self; 23] = [
        Self::GetBit,
        Self::GetBits,
        Self::GetSbits,
        Self::GetVlc,
        Self::GetUniform,
        Self::GetRefUniform,
        Self::GetUleb128,
        Self::GetGolomb,
        Self::GetBitsSubexpU,
        Self::GetBitsSubexp,
        Self::Bytealign,
        Self::ParseTileInfo,
        Self::ParseSeqHdr,
        Self::ParseTileInfoFrmhdr,
        Self::ParseSegInfo,
        Self::Positions,
        Self::TileRectangles,
        Self::ParseTileInfoWithin,
        Self::ParseTileInfoFrmhdrWithin,
        Self::ParseFilmGrainData,
        Self::WriteTileInfo,
        Self::Rows,
        Self::Callers,
    ];

    /// The readings that answer a number, and bytealign.
    pub const READINGS: usize = 11;
    /// The kinds that the stored list has.
    pub const STORED: usize = 21;

    pub fn number(self) -> u64 {
        self as u64
    }

    pub fn name(self) -> &'static str {
        match self {
            Self::GetBit => "get_bit",
            Self::GetBits => "get_bits",
            Self::GetSbits => "get_sbits",
            Self::GetVlc => "get_vlc",
            Self::GetUniform => "get_uniform",
            Self::GetRefUniform => "get_ref_uniform",
            Self::GetUleb128 => "get_uleb128",
            Self::GetGolomb => "get_golomb",
            Self::GetBitsSubexpU => "get_bits_subexp_u",
            Self::GetBitsSubexp => "get_bits_subexp",
            Self::Bytealign => "bytealign",
            Self::ParseTileInfo => "parse_tile_info",
            Self::ParseSeqHdr => "parse_seq_hdr",
            Self::ParseTileInfoFrmhdr => "parse_tile_info_frmhdr",
            Self::ParseSegInfo => "parse_seg_info",
            Self::Positions => "positions",
            Self::Rows => "rows",
            Self::TileRectangles => "tile_rectangles",
            Self::ParseTileInfoWithin => "parse_tile_info_within",
            Self::ParseTileInfoFrmhdrWithin => "parse_tile_info_frmhdr_within",
            Self::ParseFilmGrainData => "parse_film_grain_data",
            Self::WriteTileInfo => "write_tile_info",
            Self::Callers => "callers",
        }
    }

    pub fn named(name: &str) -> Option<Self> {
        Self::ALL.into_iter().find(|kind| kind.name() == name)
    }

    /// Whether the answer is document 01's number and a record stands beside it.
    pub fn has_answer(self) -> bool {
        matches!(
            self,
            Self::ParseTileInfo
                | Self::ParseSeqHdr
                | Self::ParseTileInfoFrmhdr
                | Self::ParseSegInfo
                | Self::TileRectangles
                | Self::ParseFilmGrainData
                | Self::WriteTileInfo
        ) || self.is_limited()
    }

    /// Whether a layout is read, which stands at the end of the record.
    pub fn reads_layout(self) -> bool {
        matches!(
            self,
            Self::ParseTileInfo | Self::ParseSeqHdr | Self::ParseTileInfoFrmhdr
        ) || self.is_limited()
    }

    /// Whether the last two arguments are a limit: the most columns, the most rows.
    pub fn is_limited(self) -> bool {
        matches!(
            self,
            Self::ParseTileInfoWithin | Self::ParseTileInfoFrmhdrWithin
        )
    }

    /// The full lengths of the buffers that are lent beside the data.
    pub fn full_lengths(self) -> &'static [i64] {
        match self {
            Self::ParseTileInfo
            | Self::ParseTileInfoWithin
            | Self::TileRectangles
            | Self::WriteTileInfo => &[9, 65, 65],
            Self::ParseSeqHdr => &[146, 9, 65, 65],
            Self::ParseTileInfoFrmhdr | Self::ParseTileInfoFrmhdrWithin => &[9, 65, 65, 9, 65, 65],
            Self::ParseSegInfo => &[16, 3],
            Self::ParseFilmGrainData => &[186],
            _ => &[],
        }
    }
}
