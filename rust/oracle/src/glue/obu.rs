// Ours, behind the Rust's items: its private functions for the rest of the crate.
pub(crate) mod private {
    use super::{GetBits, Result, SegmentationDataSet, TileInfo};

    pub(crate) fn parse_seg_info(seg: &mut SegmentationDataSet, gb: &mut GetBits, n_seg: usize) {
        super::parse_seg_info(seg, gb, n_seg);
    }

    #[allow(clippy::too_many_arguments)]
    pub(crate) fn parse_tile_info(
        thdr: &mut TileInfo,
        gb: &mut GetBits,
        sbmul: i32,
        sb128: u8,
        seq_sb128: u8,
        w: i32,
        h: i32,
        level: u8,
        tier: u8,
    ) -> Result<()> {
        super::parse_tile_info(thdr, gb, sbmul, sb128, seq_sb128, w, h, level, tier)
    }
}
