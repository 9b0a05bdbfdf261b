//! A sequence header and film grain parameters from the row of numbers in which each crosses: depth first through the
//! library's nested records, in the order of their declaration. A header's layout crosses by itself.

// Each number is one of its field's type, by the library's contract.
#![allow(clippy::cast_possible_truncation, clippy::cast_sign_loss)]

use crate::ffi::{GRAIN_NUMBERS, HEADER_NUMBERS};
use crate::headers::{
    AdaptiveBoolean, CropInfo, FilmGrainData, PixelLayout, SegmentationDataSet, SeqSegmentation,
    SeqTiling, SequenceHeader, TileInfo,
};
use std::array::from_fn;

/// Takes the numbers of a record one after the other.
struct Row<'a, T, const N: usize> {
    numbers: &'a [T; N],
    next: usize,
}

impl<T: Copy + Into<i64>, const N: usize> Row<'_, T, N> {
    #[inline(always)]
    fn number(&mut self) -> i64 {
        let number = self.numbers[self.next].into();
        self.next += 1;
        number
    }

    #[inline(always)]
    fn i32(&mut self) -> i32 {
        self.number() as i32
    }

    #[inline(always)]
    fn u8(&mut self) -> u8 {
        self.number() as u8
    }

    #[inline(always)]
    fn flag(&mut self) -> bool {
        self.number() != 0
    }

    #[inline(always)]
    fn adaptive(&mut self) -> AdaptiveBoolean {
        match self.number() {
            0 => AdaptiveBoolean::Off,
            1 => AdaptiveBoolean::On,
            _ => AdaptiveBoolean::Adaptive,
        }
    }

    #[inline(always)]
    fn layout(&mut self) -> PixelLayout {
        match self.number() {
            0 => PixelLayout::I400,
            1 => PixelLayout::I420,
            2 => PixelLayout::I422,
            _ => PixelLayout::I444,
        }
    }

    #[inline(always)]
    fn bytes(&mut self) -> [u8; 8] {
        from_fn(|_| self.u8())
    }

    #[inline(always)]
    fn crop(&mut self) -> CropInfo {
        CropInfo {
            enabled: self.flag(),
            left: self.number() as u32,
            right: self.number() as u32,
            top: self.number() as u32,
            bottom: self.number() as u32,
        }
    }

    #[inline(always)]
    fn segmentation(&mut self) -> SeqSegmentation {
        SeqSegmentation {
            ext: self.flag(),
            info_present: self.flag(),
            adaptive: self.flag(),
            d: SegmentationDataSet {
                delta_q: from_fn(|_| self.number() as i16),
                delta_q_mask: self.number() as u16,
                skip_mask: self.number() as u16,
                globalmv_mask: self.number() as u16,
            },
        }
    }
}

/// The header of a row of numbers. The fields stand in the order of the row, not in that of their declaration.
// Inlined, it would make the fields on the stack first and copy them into the record.
#[inline(never)]
pub(crate) fn sequence_header(numbers: &[i64; HEADER_NUMBERS], t: TileInfo) -> SequenceHeader {
    let mut row = Row { numbers, next: 0 };
    SequenceHeader {
        id: row.u8(),
        profile: row.u8(),
        reduced_still_picture_header: row.flag(),
        level: row.u8(),
        tier: row.u8(),
        layout: row.layout(),
        ss_hor: row.u8(),
        ss_ver: row.u8(),
        hbd: row.u8(),
        lcr_id: row.u8(),
        still_picture: row.flag(),
        max_tlayer_id: row.u8(),
        max_mlayer_id: row.u8(),
        monotonic: row.flag(),
        width_n_bits: row.u8(),
        height_n_bits: row.u8(),
        max_width: row.i32(),
        max_height: row.i32(),
        crop: row.crop(),
        tlayer_dependency_present: row.flag(),
        mlayer_dependency_present: row.flag(),
        tlayer_dependencies: row.bytes(),
        mlayer_dependencies: row.bytes(),
        sb128: row.u8(),
        sdp: row.flag(),
        ext_sdp: row.flag(),
        ext_partitions: row.flag(),
        uneven_4way_partitions: row.flag(),
        max_pb_aspect_ratio_log2: row.u8(),
        segmentation: row.segmentation(),
        intra_dip: row.flag(),
        intra_edge_filter: row.flag(),
        mrls: row.flag(),
        cfl: row.flag(),
        cfl_ds_filter_index: row.u8(),
        mhccp: row.flag(),
        ibp: row.flag(),
        motion_modes: row.u8(),
        frame_motion_modes_present: row.flag(),
        six_param_warp_delta: row.flag(),
        masked_compound: row.flag(),
        ref_frame_mvs: row.flag(),
        reduced_ref_frame_mvs_mode: row.u8(),
        order_hint_n_bits: row.u8(),
        refmv_bank: row.flag(),
        drl_reorder: row.u8(),
        explicit_ref_frame_map: row.flag(),
        ref_frames: row.u8(),
        ref_frames_log2: row.u8(),
        number_of_bits_for_lt_frame_id: row.u8(),
        def_max_drl_bits: row.u8(),
        allow_frame_max_drl_bits: row.flag(),
        def_max_bvp_drl_bits: row.u8(),
        allow_max_bvp_drl_bits: row.flag(),
        num_same_ref_comp: row.u8(),
        tip: row.flag(),
        tip_hole_fill: row.flag(),
        mv_traj: row.flag(),
        bawp: row.flag(),
        cwp: row.flag(),
        imp_msk_bld: row.flag(),
        db_sub_pu: row.flag(),
        tip_explicit_qp: row.flag(),
        opfl_refine: row.flag(),
        refine_mv: row.flag(),
        tip_refine_mv: row.flag(),
        bru: row.flag(),
        adaptive_mvd: row.flag(),
        mvd_sign_derive: row.flag(),
        flex_mvres: row.flag(),
        global_motion: row.flag(),
        short_refresh_frame_flags: row.flag(),
        screen_content_tools: row.adaptive(),
        force_integer_mv: row.adaptive(),
        fsc: row.flag(),
        idtx_intra: row.flag(),
        ist: [row.flag(), row.flag()],
        chroma_dctonly: row.flag(),
        inter_ddt: row.flag(),
        reduced_tx_part_set: row.flag(),
        cctx: row.flag(),
        tcq: row.adaptive(),
        parity_hiding: row.flag(),
        avg_cdf: row.flag(),
        avg_cdf_type: row.u8(),
        separate_uv_delta_q: row.flag(),
        equal_ac_dc_q: row.flag(),
        base_ydc_dq: row.number() as i8,
        ydc_dq_enabled: row.flag(),
        base_uvdc_dq: row.u8(),
        uvdc_dq_enabled: row.flag(),
        base_uvac_dq: row.u8(),
        uvac_dq_enabled: row.flag(),
        disable_loopfilters_across_tiles: row.flag(),
        cdef: row.flag(),
        gdf: row.flag(),
        gdf_unit_matches_sbsz: row.flag(),
        restoration: row.flag(),
        rst_disable_mask: [row.u8(), row.u8()],
        ccso: row.flag(),
        ccso_unit_matches_sbsz: row.flag(),
        cdef_on_skiptx: row.adaptive(),
        df_par_bits: row.u8(),
        tiling: SeqTiling {
            present: row.adaptive(),
            t,
        },
        film_grain_present: row.flag(),
    }
}

/// The film grain parameters of a row of numbers.
#[inline(always)]
pub(crate) fn film_grain_data(numbers: &[i16; GRAIN_NUMBERS]) -> FilmGrainData {
    let mut row = Row { numbers, next: 0 };
    FilmGrainData {
        chroma_scaling_from_luma: row.flag(),
        num_points: from_fn(|_| row.i32()),
        points: from_fn(|_| from_fn(|_| [row.u8(), row.u8()])),
        scaling_shift: row.i32(),
        ar_coeff_lag: row.i32(),
        ar_coeffs: from_fn(|_| from_fn(|_| row.number() as i8)),
        ar_coeff_shift: row.number() as u64,
        grain_scale_shift: row.i32(),
        uv_mult: from_fn(|_| row.i32()),
        uv_luma_mult: from_fn(|_| row.i32()),
        uv_offset: from_fn(|_| row.i32()),
        overlap_flag: row.flag(),
        clip_to_restricted_range: row.flag(),
        mc_identity: row.flag(),
        block_size: row.i32(),
    }
}

#[cfg(test)]
mod tests;
