//! The records and enums, with the names, the order and the types of the Rust.

/// The most columns of a layout.
pub const MAX_TILE_COLS: usize = 64;
/// The most rows of a layout.
pub const MAX_TILE_ROWS: usize = 64;
/// The most segments.
pub const MAX_SEGMENTS: usize = 16;

/// Off, on, or told by each frame.
#[derive(Debug, Clone, Copy, PartialEq, Eq, Default)]
#[repr(u8)]
pub enum AdaptiveBoolean {
    /// Off.
    #[default]
    Off = 0,
    /// On.
    On = 1,
    /// Each frame tells.
    Adaptive = 2,
}

/// How the chroma planes are sampled.
#[derive(Debug, Clone, Copy, PartialEq, Eq, Default)]
#[repr(u8)]
pub enum PixelLayout {
    /// No chroma.
    #[default]
    I400 = 0,
    /// Half the width and half the height.
    I420 = 1,
    /// Half the width.
    I422 = 2,
    /// The full size.
    I444 = 3,
}

/// The type of a frame.
#[derive(Debug, Clone, Copy, PartialEq, Eq, Default)]
#[repr(u8)]
pub enum FrameType {
    /// A key frame.
    #[default]
    Key = 0,
    /// An inter frame.
    Inter = 1,
    /// An intra frame that is no key frame.
    Intra = 2,
    /// A switch frame.
    Switch = 3,
}

/// The features of the segments.
#[derive(Debug, Clone, Copy, Default, PartialEq)]
pub struct SegmentationDataSet {
    /// Quantizer deltas, −351 to 351.
    pub delta_q: [i16; MAX_SEGMENTS],
    /// Which segments have a delta.
    pub delta_q_mask: u16,
    /// Which segments are skipped.
    pub skip_mask: u16,
    /// Which segments have global motion.
    pub globalmv_mask: u16,
}

/// How a picture is cut into tiles.
///
/// The first `cols` + 1 column starts and the first `rows` + 1 row starts tell the tiles. Behind them stand zeros in every
/// layout that was accepted, whatever stood there before: [`col_starts`](Self::col_starts) and
/// [`row_starts`](Self::row_starts) leave them out.
///
/// The library reads and writes a record where it stands, so its first nine bytes are the nine fields in this order.
#[derive(Debug, Clone, PartialEq)]
#[repr(C)]
pub struct TileInfo {
    /// Whether the tiles have even sizes.
    pub uniform: bool,
    /// The least logarithm of the columns.
    pub min_log2_cols: u8,
    /// The greatest logarithm of the columns.
    pub max_log2_cols: u8,
    /// The logarithm of the columns.
    pub log2_cols: u8,
    /// The columns, 1 to 64.
    pub cols: u8,
    /// The least logarithm of the rows; not set by a layout that is not uniform.
    pub min_log2_rows: u8,
    /// The greatest logarithm of the rows.
    pub max_log2_rows: u8,
    /// The logarithm of the rows.
    pub log2_rows: u8,
    /// The rows, 1 to 64.
    pub rows: u8,
    /// Where each column starts, in superblocks; then the width, and zeros.
    pub col_start_sb: Box<[u16; MAX_TILE_COLS + 1]>,
    /// Where each row starts, in superblocks; then the height, and zeros.
    pub row_start_sb: Box<[u16; MAX_TILE_ROWS + 1]>,
}

impl Default for TileInfo {
    fn default() -> Self {
        Self {
            uniform: false,
            min_log2_cols: 0,
            max_log2_cols: 0,
            log2_cols: 0,
            cols: 0,
            min_log2_rows: 0,
            max_log2_rows: 0,
            log2_rows: 0,
            rows: 0,
            col_start_sb: Box::new([0; MAX_TILE_COLS + 1]),
            row_start_sb: Box::new([0; MAX_TILE_ROWS + 1]),
        }
    }
}

impl TileInfo {
    /// Where each column starts, in superblocks, and behind them the width: `cols` + 1 numbers. Of a record with more
    /// than 64 columns, which no reading gives, all 65.
    ///
    /// ```
    /// # use mubanlig::{GetBits, TileInfo, parse_tile_info};
    /// let mut layout = TileInfo::default();
    /// parse_tile_info(&mut layout, &mut GetBits::new(&[0x28]), 1, 0, 0, 256, 128, 0, 0)?;
    /// assert_eq!(layout.col_starts(), [0, 2, 3, 4]);
    /// assert_eq!(layout.row_starts(), [0, 2]);
    /// for column in layout.col_starts().windows(2) {
    ///     assert!(column[0] < column[1]);
    /// }
    /// # Ok::<(), mubanlig::Error>(())
    /// ```
    #[must_use]
    pub fn col_starts(&self) -> &[u16] {
        &self.col_start_sb[..=usize::from(self.cols).min(MAX_TILE_COLS)]
    }

    /// Where each row starts, in superblocks, and behind them the height: `rows` + 1 numbers, at most 65.
    #[must_use]
    pub fn row_starts(&self) -> &[u16] {
        &self.row_start_sb[..=usize::from(self.rows).min(MAX_TILE_ROWS)]
    }

    /// How many tiles there are: a buffer for [`tile_rectangles`](crate::tile_rectangles) has four numbers for each.
    #[must_use]
    pub fn tiles(&self) -> usize {
        usize::from(self.cols) * usize::from(self.rows)
    }
}

/// The most columns and rows of a layout that a viewer can show: any numbers.
///
/// ```
/// # use mubanlig::TileLimit;
/// assert_eq!((TileLimit::WALL.cols, TileLimit::WALL.rows), (64, 64));
/// assert_eq!((TileLimit::PANEL.cols, TileLimit::PANEL.rows), (16, 8));
/// ```
#[derive(Debug, Clone, Copy, PartialEq, Eq)]
pub struct TileLimit {
    /// The most columns.
    pub cols: u8,
    /// The most rows.
    pub rows: u8,
}

impl TileLimit {
    /// A viewer on a wall: every layout is within it.
    pub const WALL: Self = Self { cols: 64, rows: 64 };
    /// A handheld panel.
    pub const PANEL: Self = Self { cols: 16, rows: 8 };
}

/// A sequence header.
#[derive(Debug, Clone, Default, PartialEq)]
pub struct SequenceHeader {
    /// The sequence's id, cut to eight bits.
    pub id: u8,
    /// The profile: 0 to 8, or 31.
    pub profile: u8,
    /// The short form for a single picture.
    pub reduced_still_picture_header: bool,
    /// The level, 0 to 31.
    pub level: u8,
    /// The tier, 0 or 1.
    pub tier: u8,
    /// The chroma sampling.
    pub layout: PixelLayout,
    /// Whether chroma has half the width.
    pub ss_hor: u8,
    /// Whether chroma has half the height.
    pub ss_ver: u8,
    /// The bit depth: 0, 1, 2 for 8, 10, 12 bits.
    pub hbd: u8,
    /// The layer configuration record's id.
    pub lcr_id: u8,
    /// Whether the sequence is a single picture.
    pub still_picture: bool,
    /// The highest temporal layer.
    pub max_tlayer_id: u8,
    /// The highest embedded layer.
    pub max_mlayer_id: u8,
    /// Whether the temporal layers' dependencies are sent.
    pub tlayer_dependency_present: bool,
    /// Whether the embedded layers' dependencies are sent.
    pub mlayer_dependency_present: bool,
    /// The temporal layers that each depends on.
    pub tlayer_dependencies: [u8; 8],
    /// The embedded layers that each depends on.
    pub mlayer_dependencies: [u8; 8],
    /// Whether output follows decoding order.
    pub monotonic: bool,
    /// The greatest width of a frame, 1 to 65,536.
    pub max_width: i32,
    /// The greatest height of a frame, 1 to 65,536.
    pub max_height: i32,
    /// The bits of a width.
    pub width_n_bits: u8,
    /// The bits of a height.
    pub height_n_bits: u8,

    /// What is cut off for display.
    pub crop: CropInfo,
    /// The superblock code: 0, 1, 2 for 64, 128, 256 samples.
    pub sb128: u8,

    /// Semi-decoupled partitioning.
    pub sdp: bool,
    /// Semi-decoupled partitioning in inter frames.
    pub ext_sdp: bool,
    /// Extended partitions.
    pub ext_partitions: bool,
    /// Uneven four-way partitions.
    pub uneven_4way_partitions: bool,
    /// The logarithm of a block's greatest aspect ratio.
    pub max_pb_aspect_ratio_log2: u8,

    /// Segmentation.
    pub segmentation: SeqSegmentation,

    /// Data-driven intra prediction.
    pub intra_dip: bool,
    /// The intra edge filter.
    pub intra_edge_filter: bool,
    /// Multiple reference lines.
    pub mrls: bool,
    /// Chroma from luma.
    pub cfl: bool,
    /// The down-sampling filter of chroma from luma; the reserved 3 reads as 0.
    pub cfl_ds_filter_index: u8,
    /// Multi-hypothesis cross-component prediction.
    pub mhccp: bool,
    /// Intra bi-prediction.
    pub ibp: bool,

    /// The motion modes, a bit each; bit 0 is always set.
    pub motion_modes: u8,
    /// Whether frames send their motion modes.
    pub frame_motion_modes_present: bool,
    /// Warp deltas with six parameters.
    pub six_param_warp_delta: bool,
    /// Masked compound prediction.
    pub masked_compound: bool,
    /// Motion vectors from reference frames.
    pub ref_frame_mvs: bool,
    /// The reduced mode of these.
    pub reduced_ref_frame_mvs_mode: u8,
    /// The bits of an order hint.
    pub order_hint_n_bits: u8,

    /// The bank of reference motion vectors.
    pub refmv_bank: bool,
    /// Reordering of the list of motion vectors: 0 off, 1 under a constraint, 2 always.
    pub drl_reorder: u8,
    /// Whether frames send the map of their references.
    pub explicit_ref_frame_map: bool,
    /// The reference frames, 1 to 8.
    pub ref_frames: u8,
    /// The bits of a reference's index; 0 in the reduced form.
    pub ref_frames_log2: u8,
    /// The bits of a long-term frame id.
    pub number_of_bits_for_lt_frame_id: u8,
    /// The default of the greatest index into the list of motion vectors.
    pub def_max_drl_bits: u8,
    /// Whether a frame may change it.
    pub allow_frame_max_drl_bits: bool,
    /// The default of the greatest index into the list of block vectors.
    pub def_max_bvp_drl_bits: u8,
    /// Whether a frame may change it.
    pub allow_max_bvp_drl_bits: bool,
    /// Compounds of one reference with itself.
    pub num_same_ref_comp: u8,

    /// Temporal interpolated prediction.
    pub tip: bool,
    /// Its hole filling.
    pub tip_hole_fill: bool,
    /// Motion vector trajectories.
    pub mv_traj: bool,
    /// Block adaptive weighted prediction.
    pub bawp: bool,
    /// Compound weighted prediction.
    pub cwp: bool,
    /// Implicit masked blending.
    pub imp_msk_bld: bool,

    /// Deblocking of parts of a block.
    pub db_sub_pu: bool,
    /// An explicit quantizer for interpolated frames.
    pub tip_explicit_qp: bool,

    /// Refinement by optical flow.
    pub opfl_refine: bool,
    /// Refinement of motion vectors.
    pub refine_mv: bool,
    /// Refinement in interpolated frames.
    pub tip_refine_mv: bool,
    /// Backward reference update.
    pub bru: bool,
    /// Adaptive motion vector differences.
    pub adaptive_mvd: bool,
    /// Derived signs of motion vector differences.
    pub mvd_sign_derive: bool,
    /// Flexible motion vector resolution.
    pub flex_mvres: bool,
    /// Global motion.
    pub global_motion: bool,
    /// Short flags for refreshed frames.
    pub short_refresh_frame_flags: bool,

    /// Tools for screen content.
    pub screen_content_tools: AdaptiveBoolean,
    /// Motion vectors of whole samples.
    pub force_integer_mv: AdaptiveBoolean,

    /// Forward skip coding.
    pub fsc: bool,
    /// The identity transform in intra blocks.
    pub idtx_intra: bool,
    /// The secondary transform: intra, inter.
    pub ist: [bool; 2],
    /// Chroma with the cosine transform only.
    pub chroma_dctonly: bool,
    /// Data-driven transforms in inter blocks.
    pub inter_ddt: bool,
    /// The reduced set of transform partitions.
    pub reduced_tx_part_set: bool,
    /// Cross-chroma component transforms.
    pub cctx: bool,

    /// Trellis coded quantization.
    pub tcq: AdaptiveBoolean,
    /// Parity hiding.
    pub parity_hiding: bool,

    /// Averaged probabilities.
    pub avg_cdf: bool,
    /// How they are averaged.
    pub avg_cdf_type: u8,

    /// Loop filters stop at tile edges.
    pub disable_loopfilters_across_tiles: bool,
    /// The directional enhancement filter.
    pub cdef: bool,
    /// The guided detail filter.
    pub gdf: bool,
    /// Whether its unit is the superblock.
    pub gdf_unit_matches_sbsz: bool,
    /// Loop restoration.
    pub restoration: bool,
    /// Its tools that are off: luma, chroma.
    pub rst_disable_mask: [u8; 2],
    /// Cross-component sample offset.
    pub ccso: bool,
    /// Whether its unit is the superblock.
    pub ccso_unit_matches_sbsz: bool,
    /// The directional filter on skipped transforms.
    pub cdef_on_skiptx: AdaptiveBoolean,
    /// The bits of a deblocking parameter.
    pub df_par_bits: u8,

    /// Deltas of their own for both chroma planes.
    pub separate_uv_delta_q: bool,
    /// Whether one quantizer serves all coefficients.
    pub equal_ac_dc_q: bool,
    /// The base delta of luma, −23 to 8; 0 where `equal_ac_dc_q` is set.
    pub base_ydc_dq: i8,
    /// Whether frames send it.
    pub ydc_dq_enabled: bool,
    /// The five bits less 23, in a byte that wraps.
    pub base_uvdc_dq: u8,
    /// Whether frames send it.
    pub uvdc_dq_enabled: bool,
    /// The five bits less 23, in a byte that wraps.
    pub base_uvac_dq: u8,
    /// Whether frames send it.
    pub uvac_dq_enabled: bool,

    /// The sequence's tile layout.
    pub tiling: SeqTiling,
    /// Whether there is film grain.
    pub film_grain_present: bool,
}

/// What is cut off at each side for display.
#[derive(Debug, Clone, Copy, Default, PartialEq)]
pub struct CropInfo {
    /// Whether anything is.
    pub enabled: bool,
    /// At the left.
    pub left: u32,
    /// At the right.
    pub right: u32,
    /// At the top.
    pub top: u32,
    /// At the bottom.
    pub bottom: u32,
}

/// A sequence's segmentation.
#[derive(Debug, Clone, Default, PartialEq)]
pub struct SeqSegmentation {
    /// 16 segments instead of 8.
    pub ext: bool,
    /// Whether the features are sent.
    pub info_present: bool,
    /// Whether frames may send their own.
    pub adaptive: bool,
    /// The features.
    pub d: SegmentationDataSet,
}

/// A sequence's tile layout.
#[derive(Debug, Clone, Default, PartialEq)]
pub struct SeqTiling {
    /// `On`: frames that it fits reuse it. `Adaptive`: they tell by a bit.
    pub present: AdaptiveBoolean,
    /// The layout.
    pub t: TileInfo,
}

/// Film grain parameters. Of three planes luma comes first; of two there are the chroma planes alone.
///
/// Only the first `num_points` points of a plane and the first coefficients that `ar_coeff_lag` asks for count: those
/// behind are 0.
#[derive(Debug, Clone, Copy, PartialEq, Eq, Default)]
pub struct FilmGrainData {
    /// Whether chroma is scaled by luma's list: then both chroma lists are empty, and `uv_mult`, `uv_luma_mult` and
    /// `uv_offset` are 0.
    pub chroma_scaling_from_luma: bool,
    /// The points of each plane's scaling function, 0 to 14.
    pub num_points: [i32; 3],
    /// Position and value of each point. Positions never fall, and may be equal.
    pub points: [[[u8; 2]; 14]; 3],
    /// The shift of the scaled noise, 8 to 11.
    pub scaling_shift: i32,
    /// How far the autoregression looks back, 0 to 3: 2 × lag × (lag + 1) coefficients.
    pub ar_coeff_lag: i32,
    /// The coefficients of each plane; a chroma plane has one more, for luma, where luma has points.
    pub ar_coeffs: [[i8; 28]; 3],
    /// The shift of the coefficients, 6 to 9.
    pub ar_coeff_shift: u64,
    /// The shift of the random numbers, 0 to 3.
    pub grain_scale_shift: i32,
    /// The factor of chroma in the index of its scaling function, −128 to 127.
    pub uv_mult: [i32; 2],
    /// The factor of luma in it, −128 to 127.
    pub uv_luma_mult: [i32; 2],
    /// What is added to it, −256 to 255.
    pub uv_offset: [i32; 2],
    /// Whether the blocks of noise overlap.
    pub overlap_flag: bool,
    /// Whether the picture is held to the restricted range.
    pub clip_to_restricted_range: bool,
    /// Whether that range is the one of the identity matrix; read only where the picture is held to it.
    pub mc_identity: bool,
    /// The code of the size of a block of noise, 0 or 1.
    pub block_size: i32,
}

/// A frame's tile layout.
#[derive(Debug, Clone, Default, PartialEq)]
pub struct FhTiling {
    /// The layout.
    pub t: TileInfo,
}

/// What a frame's header has of its size and its tile layout; the Rust's has further fields.
#[derive(Debug, Clone, Default, PartialEq)]
pub struct FrameHeader {
    /// The type.
    pub frame_type: FrameType,
    /// The width, 1 to 65,536.
    pub width: i32,
    /// The height, 1 to 65,536.
    pub height: i32,
    /// The superblock code, set by [`parse_tile_info_frmhdr`](crate::parse_tile_info_frmhdr).
    pub sb128: u8,
    /// The tile layout.
    pub tiling: FhTiling,
}

impl FrameHeader {
    /// An inter or switch frame.
    #[must_use]
    pub fn is_inter_or_switch(&self) -> bool {
        matches!(self.frame_type, FrameType::Inter | FrameType::Switch)
    }

    /// A key or intra frame.
    #[must_use]
    pub fn is_key_or_intra(&self) -> bool {
        !self.is_inter_or_switch()
    }
}
