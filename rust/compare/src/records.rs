//! Records as rows of numbers, by name and for both libraries: the order is that of the C interface.

#[cfg(feature = "ours")]
use mubanlig as ours;
use oracle::headers as theirs;

/// The numbers of a `TileInfo`.
pub const TILE: usize = 139;
/// The numbers of a `SegmentationDataSet`.
pub const SEG: usize = 19;
/// The numbers of a `SequenceHeader`.
pub const HEADER: usize = 285;
/// The numbers of a `FilmGrainData`.
pub const GRAIN: usize = 186;

/// A field as numbers.
pub trait Numbers {
    fn numbers(&self, out: &mut Vec<i64>);
}

macro_rules! plain_numbers {
    ($($type:ty),*) => {
        $(impl Numbers for $type {
            #[inline]
            fn numbers(&self, out: &mut Vec<i64>) {
                out.push(*self as i64);
            }
        })*
    };
}

plain_numbers!(bool, u8, i8, u16, i16, i32, u32, u64);
#[cfg(feature = "ours")]
plain_numbers!(ours::AdaptiveBoolean, ours::PixelLayout);
plain_numbers!(theirs::AdaptiveBoolean, theirs::PixelLayout);

impl<T: Numbers, const N: usize> Numbers for [T; N] {
    #[inline]
    fn numbers(&self, out: &mut Vec<i64>) {
        for entry in self {
            entry.numbers(out);
        }
    }
}

impl<T: Numbers> Numbers for Box<T> {
    #[inline]
    fn numbers(&self, out: &mut Vec<i64>) {
        (**self).numbers(out);
    }
}

/// Eight bytes of a text are one number.
impl Numbers for String {
    fn numbers(&self, out: &mut Vec<i64>) {
        out.extend(self.as_bytes().chunks(8).map(|part| {
            let mut bytes = [0; 8];
            bytes[..part.len()].copy_from_slice(part);
            i64::from_le_bytes(bytes)
        }));
    }
}

/// Rows of numbers for a record of both libraries, from one list of its fields, and the fields' names.
macro_rules! record_numbers {
    ($names:ident: $ours:ty, $theirs:ty { $($($field:ident).+),* $(,)? }) => {
        #[cfg(feature = "ours")]
        impl Numbers for $ours {
            fn numbers(&self, out: &mut Vec<i64>) {
                $(self.$($field).+.numbers(out);)*
            }
        }

        impl Numbers for $theirs {
            fn numbers(&self, out: &mut Vec<i64>) {
                $(self.$($field).+.numbers(out);)*
            }
        }

        /// The name of each number.
        pub fn $names() -> Vec<String> {
            let record = <$theirs>::default();
            let mut names = Vec::new();
            $({
                let name = concat!($(".", stringify!($field)),+);
                let mut row = Vec::new();
                record.$($field).+.numbers(&mut row);
                if row.len() == 1 {
                    names.push(name[1..].to_string());
                } else {
                    names.extend((0..row.len()).map(|i| format!("{}[{i}]", &name[1..])));
                }
            })*
            names
        }
    };
}

record_numbers! { tile_names: ours::TileInfo, theirs::TileInfo {
    uniform, min_log2_cols, max_log2_cols, log2_cols, cols, min_log2_rows, max_log2_rows, log2_rows, rows,
    col_start_sb, row_start_sb,
} }

record_numbers! { seg_names: ours::SegmentationDataSet, theirs::SegmentationDataSet {
    delta_q, delta_q_mask, skip_mask, globalmv_mask,
} }

record_numbers! { header_names: ours::SequenceHeader, theirs::SequenceHeader {
    id, profile,
    reduced_still_picture_header, level, tier,
    layout, ss_hor, ss_ver, hbd,
    lcr_id, still_picture, max_tlayer_id, max_mlayer_id, monotonic,
    width_n_bits, height_n_bits, max_width, max_height,
    crop.enabled, crop.left, crop.right, crop.top, crop.bottom,
    tlayer_dependency_present, mlayer_dependency_present, tlayer_dependencies, mlayer_dependencies,
    sb128, sdp, ext_sdp, ext_partitions, uneven_4way_partitions, max_pb_aspect_ratio_log2,
    segmentation.ext, segmentation.info_present, segmentation.adaptive,
    segmentation.d.delta_q, segmentation.d.delta_q_mask, segmentation.d.skip_mask, segmentation.d.globalmv_mask,
    intra_dip, intra_edge_filter, mrls, cfl, cfl_ds_filter_index, mhccp, ibp,
    motion_modes, frame_motion_modes_present, six_param_warp_delta, masked_compound, ref_frame_mvs,
    reduced_ref_frame_mvs_mode, order_hint_n_bits,
    refmv_bank, drl_reorder, explicit_ref_frame_map, ref_frames, ref_frames_log2,
    number_of_bits_for_lt_frame_id, def_max_drl_bits, allow_frame_max_drl_bits, def_max_bvp_drl_bits,
    allow_max_bvp_drl_bits, num_same_ref_comp,
    tip, tip_hole_fill, mv_traj, bawp, cwp, imp_msk_bld, db_sub_pu, tip_explicit_qp,
    opfl_refine, refine_mv, tip_refine_mv, bru, adaptive_mvd, mvd_sign_derive, flex_mvres, global_motion,
    short_refresh_frame_flags,
    screen_content_tools, force_integer_mv,
    fsc, idtx_intra, ist, chroma_dctonly, inter_ddt, reduced_tx_part_set, cctx,
    tcq, parity_hiding, avg_cdf, avg_cdf_type,
    separate_uv_delta_q, equal_ac_dc_q, base_ydc_dq, ydc_dq_enabled, base_uvdc_dq, uvdc_dq_enabled,
    base_uvac_dq, uvac_dq_enabled,
    disable_loopfilters_across_tiles, cdef, gdf, gdf_unit_matches_sbsz, restoration, rst_disable_mask,
    ccso, ccso_unit_matches_sbsz, cdef_on_skiptx, df_par_bits,
    tiling.present, film_grain_present,
    tiling.t.uniform, tiling.t.min_log2_cols, tiling.t.max_log2_cols, tiling.t.log2_cols, tiling.t.cols,
    tiling.t.min_log2_rows, tiling.t.max_log2_rows, tiling.t.log2_rows, tiling.t.rows,
    tiling.t.col_start_sb, tiling.t.row_start_sb,
} }

record_numbers! { grain_names: ours::FilmGrainData, theirs::FilmGrainData {
    chroma_scaling_from_luma, num_points, points,
    scaling_shift, ar_coeff_lag, ar_coeffs, ar_coeff_shift, grain_scale_shift,
    uv_mult, uv_luma_mult, uv_offset,
    overlap_flag, clip_to_restricted_range, mc_identity, block_size,
} }

/// Records of both libraries from a row of numbers.
macro_rules! from_numbers {
    ($library:ident) => {
        pub mod $library {
            use super::super::$library as library;

            pub fn tile_info(row: &[i64]) -> library::TileInfo {
                library::TileInfo {
                    uniform: row[0] != 0,
                    min_log2_cols: row[1] as u8,
                    max_log2_cols: row[2] as u8,
                    log2_cols: row[3] as u8,
                    cols: row[4] as u8,
                    min_log2_rows: row[5] as u8,
                    max_log2_rows: row[6] as u8,
                    log2_rows: row[7] as u8,
                    rows: row[8] as u8,
                    col_start_sb: Box::new(std::array::from_fn(|i| row[9 + i] as u16)),
                    row_start_sb: Box::new(std::array::from_fn(|i| row[74 + i] as u16)),
                }
            }

            pub fn pixel_layout(number: i64) -> library::PixelLayout {
                match number {
                    0 => library::PixelLayout::I400,
                    1 => library::PixelLayout::I420,
                    2 => library::PixelLayout::I422,
                    _ => library::PixelLayout::I444,
                }
            }

            pub fn seg_info(row: &[i64]) -> library::SegmentationDataSet {
                library::SegmentationDataSet {
                    delta_q: std::array::from_fn(|i| row[i] as i16),
                    delta_q_mask: row[16] as u16,
                    skip_mask: row[17] as u16,
                    globalmv_mask: row[18] as u16,
                }
            }

            /// The fields of a sequence header that a frame's layout needs: code, sizes, level, tier, whether
            /// there is a layout, and the layout.
            pub fn sequence(row: &[i64]) -> library::SequenceHeader {
                library::SequenceHeader {
                    sb128: row[0] as u8,
                    max_width: row[1] as i32,
                    max_height: row[2] as i32,
                    level: row[3] as u8,
                    tier: row[4] as u8,
                    tiling: library::SeqTiling {
                        present: match row[5] {
                            0 => library::AdaptiveBoolean::Off,
                            1 => library::AdaptiveBoolean::On,
                            _ => library::AdaptiveBoolean::Adaptive,
                        },
                        t: tile_info(&row[6..]),
                    },
                    ..Default::default()
                }
            }

            /// A frame of a type, width, height, code and layout.
            pub fn frame(row: &[i64]) -> library::FrameHeader {
                let mut hdr = library::FrameHeader {
                    frame_type: match row[0] {
                        0 => library::FrameType::Key,
                        1 => library::FrameType::Inter,
                        2 => library::FrameType::Intra,
                        _ => library::FrameType::Switch,
                    },
                    width: row[1] as i32,
                    height: row[2] as i32,
                    sb128: row[3] as u8,
                    ..Default::default()
                };
                hdr.tiling.t = tile_info(&row[4..]);
                hdr
            }
        }
    };
}

pub mod from {
    #[cfg(feature = "ours")]
    from_numbers!(ours);
    from_numbers!(theirs);
}
