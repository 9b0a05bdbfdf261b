/*
 * Mubanlig: AV2 sequence headers, tile layouts and film grain parameters, read by a proved library, which writes layouts too. For C and
 * C++ on x86-64 Linux.
 *
 * Link libcapi_bits.a (the readings), libcapi.a (headers, segments, and layouts written as bits), libcapi_tiles.a (layouts and their
 * rectangles), libcapi_frame.a (frames' layouts), libcapi_within.a (layouts within a limit) and libcapi_grain.a (film grain parameters),
 * which `./staticlib` with capi_bits, capi, capi_tiles, capi_frame, capi_within and capi_grain proves and writes. docs/INTERFACE.md says
 * what they promise.
 *
 * What holds of every call:
 *
 * - A buffer is a pointer and its length in elements. NULL with length 0 is fine, and reads as no data. A buffer may be longer than its
 *   name below says; what stands behind is not touched.
 * - What the caller owes: each pointer is good for its length, `position`, `error`, `sb128` and `bits` are not NULL, and nothing that is
 *   lent for writing (without const) overlaps anything else that is lent to the same call, read or written. Two that are only read may
 *   overlap.
 * - A reader is its bytes, a position and an error. It starts at position 0 with error 0, which the caller sets; each call moves it on.
 *   The position is the number of bits before the next one, most significant first in each byte. The difference of two positions is how
 *   many bits were used between them. A position past the end counts as the end, and comes back as the end.
 * - A flag is a byte, and any but 0 is set. The error is never cleared, and a byte that is set already stays what it is; else 0 or 1 is
 *   stored. Flags that are written are 0 or 1.
 * - Calls share no state: there is nothing to set up and nothing to free, and threads may call at once with buffers of their own.
 *   No call allocates.
 */
#ifndef MUBANLIG_H
#define MUBANLIG_H

#include <stddef.h>
#include <stdint.h>

#ifdef __cplusplus
extern "C" {
#endif

/* The number of this interface. A library of another one lacks the functions that have it in their names, and does not link. */
#define MUBANLIG_INTERFACE 3

/* The lengths that buffers must have, in elements. */
#define MUBANLIG_INFO_BYTES 9       /* info: a layout without its starts */
#define MUBANLIG_STARTS 65          /* col_start_sb, row_start_sb: up to 64 starts, the closing one, and zeros */
#define MUBANLIG_HEADER_NUMBERS 146 /* hdr: a sequence header without its layout */
#define MUBANLIG_DELTAS 16          /* delta_q */
#define MUBANLIG_MASKS 3            /* masks */
#define MUBANLIG_TILE_NUMBERS 4     /* out: so many for each tile */
#define MUBANLIG_GRAIN_NUMBERS 186  /* fgd: film grain parameters */
#define MUBANLIG_LAYOUT_BYTES 177   /* out: enough for every layout that is written */

/* The limits of the viewers, as max_cols and max_rows: those on walls show every layout, a handheld panel shows less. */
#define MUBANLIG_WALL_COLS 64
#define MUBANLIG_WALL_ROWS 64
#define MUBANLIG_PANEL_COLS 16
#define MUBANLIG_PANEL_ROWS 8

/* What the functions that read or write a record answer. */
enum mubanlig_answer {
    MUBANLIG_ACCEPTED = 0,
    MUBANLIG_INVALID_SEQUENCE_HEADER = 1,
    MUBANLIG_INVALID_TILE_INFO = 2,
    MUBANLIG_INVALID_TRAILING_BITS = 3,
    MUBANLIG_WRONG_ARGUMENTS = 4, /* and no bit is used */
    MUBANLIG_SHORT_BUFFER = 5,    /* and nothing that was lent changes, the position neither; only bits becomes 0 */
    MUBANLIG_TOO_MANY_TILES = 6,  /* more columns or rows than the limit; the bits of the layout are used */
    MUBANLIG_INVALID_FILM_GRAIN_DATA = 7,
    MUBANLIG_NO_SUCH_LAYOUT = 8 /* no bits read as the record that was to be written */
};

/* The bytes of info. */
enum mubanlig_info {
    MUBANLIG_INFO_UNIFORM = 0, /* a flag */
    MUBANLIG_INFO_MIN_LOG2_COLS = 1,
    MUBANLIG_INFO_MAX_LOG2_COLS = 2,
    MUBANLIG_INFO_LOG2_COLS = 3,
    MUBANLIG_INFO_COLS = 4,
    MUBANLIG_INFO_MIN_LOG2_ROWS = 5, /* stays what it was where a layout is not uniform */
    MUBANLIG_INFO_MAX_LOG2_ROWS = 6,
    MUBANLIG_INFO_LOG2_ROWS = 7,
    MUBANLIG_INFO_ROWS = 8
};

/* The entries of masks: a bit for each segment. */
enum mubanlig_masks {
    MUBANLIG_MASK_DELTA_Q = 0,
    MUBANLIG_MASK_SKIP = 1,
    MUBANLIG_MASK_GLOBALMV = 2
};

/* frame_type */
enum mubanlig_frame_type {
    MUBANLIG_FRAME_KEY = 0,
    MUBANLIG_FRAME_INTER = 1,
    MUBANLIG_FRAME_INTRA = 2,
    MUBANLIG_FRAME_SWITCH = 3
};

/* present, and in hdr: TILING_PRESENT, SCREEN_CONTENT_TOOLS, FORCE_INTEGER_MV, TCQ, CDEF_ON_SKIPTX. */
enum mubanlig_adaptive {
    MUBANLIG_OFF = 0,
    MUBANLIG_ON = 1,
    MUBANLIG_ADAPTIVE = 2
};

/* layout, and in hdr: LAYOUT. */
enum mubanlig_pixel_layout {
    MUBANLIG_I400 = 0,
    MUBANLIG_I420 = 1,
    MUBANLIG_I422 = 2,
    MUBANLIG_I444 = 3
};

/* The numbers of hdr; of a field with several, the first. */
enum mubanlig_hdr {
    MUBANLIG_HDR_ID = 0,
    MUBANLIG_HDR_PROFILE = 1,
    MUBANLIG_HDR_REDUCED_STILL_PICTURE_HEADER = 2,
    MUBANLIG_HDR_LEVEL = 3,
    MUBANLIG_HDR_TIER = 4,
    MUBANLIG_HDR_LAYOUT = 5,
    MUBANLIG_HDR_SS_HOR = 6,
    MUBANLIG_HDR_SS_VER = 7,
    MUBANLIG_HDR_HBD = 8,
    MUBANLIG_HDR_LCR_ID = 9,
    MUBANLIG_HDR_STILL_PICTURE = 10,
    MUBANLIG_HDR_MAX_TLAYER_ID = 11,
    MUBANLIG_HDR_MAX_MLAYER_ID = 12,
    MUBANLIG_HDR_MONOTONIC = 13,
    MUBANLIG_HDR_WIDTH_N_BITS = 14,
    MUBANLIG_HDR_HEIGHT_N_BITS = 15,
    MUBANLIG_HDR_MAX_WIDTH = 16,
    MUBANLIG_HDR_MAX_HEIGHT = 17,
    MUBANLIG_HDR_CROP_ENABLED = 18,
    MUBANLIG_HDR_CROP_LEFT = 19,
    MUBANLIG_HDR_CROP_RIGHT = 20,
    MUBANLIG_HDR_CROP_TOP = 21,
    MUBANLIG_HDR_CROP_BOTTOM = 22,
    MUBANLIG_HDR_TLAYER_DEPENDENCY_PRESENT = 23,
    MUBANLIG_HDR_MLAYER_DEPENDENCY_PRESENT = 24,
    MUBANLIG_HDR_TLAYER_DEPENDENCIES = 25, /* 8 numbers */
    MUBANLIG_HDR_MLAYER_DEPENDENCIES = 33, /* 8 numbers */
    MUBANLIG_HDR_SB128 = 41,
    MUBANLIG_HDR_SDP = 42,
    MUBANLIG_HDR_EXT_SDP = 43,
    MUBANLIG_HDR_EXT_PARTITIONS = 44,
    MUBANLIG_HDR_UNEVEN_4WAY_PARTITIONS = 45,
    MUBANLIG_HDR_MAX_PB_ASPECT_RATIO_LOG2 = 46,
    MUBANLIG_HDR_SEGMENTATION_EXT = 47,
    MUBANLIG_HDR_SEGMENTATION_INFO_PRESENT = 48,
    MUBANLIG_HDR_SEGMENTATION_ADAPTIVE = 49,
    MUBANLIG_HDR_SEGMENTATION_DELTA_Q = 50, /* 16 numbers */
    MUBANLIG_HDR_SEGMENTATION_DELTA_Q_MASK = 66,
    MUBANLIG_HDR_SEGMENTATION_SKIP_MASK = 67,
    MUBANLIG_HDR_SEGMENTATION_GLOBALMV_MASK = 68,
    MUBANLIG_HDR_INTRA_DIP = 69,
    MUBANLIG_HDR_INTRA_EDGE_FILTER = 70,
    MUBANLIG_HDR_MRLS = 71,
    MUBANLIG_HDR_CFL = 72,
    MUBANLIG_HDR_CFL_DS_FILTER_INDEX = 73,
    MUBANLIG_HDR_MHCCP = 74,
    MUBANLIG_HDR_IBP = 75,
    MUBANLIG_HDR_MOTION_MODES = 76,
    MUBANLIG_HDR_FRAME_MOTION_MODES_PRESENT = 77,
    MUBANLIG_HDR_SIX_PARAM_WARP_DELTA = 78,
    MUBANLIG_HDR_MASKED_COMPOUND = 79,
    MUBANLIG_HDR_REF_FRAME_MVS = 80,
    MUBANLIG_HDR_REDUCED_REF_FRAME_MVS_MODE = 81,
    MUBANLIG_HDR_ORDER_HINT_N_BITS = 82,
    MUBANLIG_HDR_REFMV_BANK = 83,
    MUBANLIG_HDR_DRL_REORDER = 84,
    MUBANLIG_HDR_EXPLICIT_REF_FRAME_MAP = 85,
    MUBANLIG_HDR_REF_FRAMES = 86,
    MUBANLIG_HDR_REF_FRAMES_LOG2 = 87,
    MUBANLIG_HDR_NUMBER_OF_BITS_FOR_LT_FRAME_ID = 88,
    MUBANLIG_HDR_DEF_MAX_DRL_BITS = 89,
    MUBANLIG_HDR_ALLOW_FRAME_MAX_DRL_BITS = 90,
    MUBANLIG_HDR_DEF_MAX_BVP_DRL_BITS = 91,
    MUBANLIG_HDR_ALLOW_MAX_BVP_DRL_BITS = 92,
    MUBANLIG_HDR_NUM_SAME_REF_COMP = 93,
    MUBANLIG_HDR_TIP = 94,
    MUBANLIG_HDR_TIP_HOLE_FILL = 95,
    MUBANLIG_HDR_MV_TRAJ = 96,
    MUBANLIG_HDR_BAWP = 97,
    MUBANLIG_HDR_CWP = 98,
    MUBANLIG_HDR_IMP_MSK_BLD = 99,
    MUBANLIG_HDR_DB_SUB_PU = 100,
    MUBANLIG_HDR_TIP_EXPLICIT_QP = 101,
    MUBANLIG_HDR_OPFL_REFINE = 102,
    MUBANLIG_HDR_REFINE_MV = 103,
    MUBANLIG_HDR_TIP_REFINE_MV = 104,
    MUBANLIG_HDR_BRU = 105,
    MUBANLIG_HDR_ADAPTIVE_MVD = 106,
    MUBANLIG_HDR_MVD_SIGN_DERIVE = 107,
    MUBANLIG_HDR_FLEX_MVRES = 108,
    MUBANLIG_HDR_GLOBAL_MOTION = 109,
    MUBANLIG_HDR_SHORT_REFRESH_FRAME_FLAGS = 110,
    MUBANLIG_HDR_SCREEN_CONTENT_TOOLS = 111,
    MUBANLIG_HDR_FORCE_INTEGER_MV = 112,
    MUBANLIG_HDR_FSC = 113,
    MUBANLIG_HDR_IDTX_INTRA = 114,
    MUBANLIG_HDR_IST = 115, /* 2 numbers */
    MUBANLIG_HDR_CHROMA_DCTONLY = 117,
    MUBANLIG_HDR_INTER_DDT = 118,
    MUBANLIG_HDR_REDUCED_TX_PART_SET = 119,
    MUBANLIG_HDR_CCTX = 120,
    MUBANLIG_HDR_TCQ = 121,
    MUBANLIG_HDR_PARITY_HIDING = 122,
    MUBANLIG_HDR_AVG_CDF = 123,
    MUBANLIG_HDR_AVG_CDF_TYPE = 124,
    MUBANLIG_HDR_SEPARATE_UV_DELTA_Q = 125,
    MUBANLIG_HDR_EQUAL_AC_DC_Q = 126,
    MUBANLIG_HDR_BASE_YDC_DQ = 127,
    MUBANLIG_HDR_YDC_DQ_ENABLED = 128,
    MUBANLIG_HDR_BASE_UVDC_DQ = 129,
    MUBANLIG_HDR_UVDC_DQ_ENABLED = 130,
    MUBANLIG_HDR_BASE_UVAC_DQ = 131,
    MUBANLIG_HDR_UVAC_DQ_ENABLED = 132,
    MUBANLIG_HDR_DISABLE_LOOPFILTERS_ACROSS_TILES = 133,
    MUBANLIG_HDR_CDEF = 134,
    MUBANLIG_HDR_GDF = 135,
    MUBANLIG_HDR_GDF_UNIT_MATCHES_SBSZ = 136,
    MUBANLIG_HDR_RESTORATION = 137,
    MUBANLIG_HDR_RST_DISABLE_MASK = 138, /* 2 numbers */
    MUBANLIG_HDR_CCSO = 140,
    MUBANLIG_HDR_CCSO_UNIT_MATCHES_SBSZ = 141,
    MUBANLIG_HDR_CDEF_ON_SKIPTX = 142,
    MUBANLIG_HDR_DF_PAR_BITS = 143,
    MUBANLIG_HDR_TILING_PRESENT = 144,
    MUBANLIG_HDR_FILM_GRAIN_PRESENT = 145
};

/* The numbers of fgd; of a field with several, the first. Of three planes luma comes first, of two there are the chroma planes alone. */
enum mubanlig_fgd {
    MUBANLIG_FGD_CHROMA_SCALING_FROM_LUMA = 0,
    MUBANLIG_FGD_NUM_POINTS = 1, /* 3 numbers, at most 14 each */
    MUBANLIG_FGD_POINTS = 4,     /* 84 numbers: 3 planes of 14 points, each its position and its value */
    MUBANLIG_FGD_SCALING_SHIFT = 88,
    MUBANLIG_FGD_AR_COEFF_LAG = 89,
    MUBANLIG_FGD_AR_COEFFS = 90, /* 84 numbers: 3 planes of 28 coefficients */
    MUBANLIG_FGD_AR_COEFF_SHIFT = 174,
    MUBANLIG_FGD_GRAIN_SCALE_SHIFT = 175,
    MUBANLIG_FGD_UV_MULT = 176,      /* 2 numbers */
    MUBANLIG_FGD_UV_LUMA_MULT = 178, /* 2 numbers */
    MUBANLIG_FGD_UV_OFFSET = 180,    /* 2 numbers */
    MUBANLIG_FGD_OVERLAP_FLAG = 182,
    MUBANLIG_FGD_CLIP_TO_RESTRICTED_RANGE = 183,
    MUBANLIG_FGD_MC_IDENTITY = 184,
    MUBANLIG_FGD_BLOCK_SIZE = 185
};

/*
 * All answer MUBANLIG_INTERFACE, one in each library. mubanlig_write_interface_3 is in libcapi.a too: the writer was in a library of its
 * own, libcapi_write.a, and a program that asks for the number of that one still links.
 */
uint32_t mubanlig_bits_interface_3(void);
uint32_t mubanlig_interface_3(void);
uint32_t mubanlig_write_interface_3(void);
uint32_t mubanlig_tiles_interface_3(void);
uint32_t mubanlig_frame_interface_3(void);
uint32_t mubanlig_within_interface_3(void);
uint32_t mubanlig_grain_interface_3(void);

/*
 * Readings, in libcapi_bits.a. Each answers its value. Data that runs out, or an argument outside the domain, sets the error; most then
 * answer 0, and wrong arguments use no bit.
 */

/* One bit; at the end 0 and the error. */
uint32_t mubanlig_get_bit(const uint8_t *s, size_t s_len, size_t *position, uint8_t *error);
/* n bits, n from 0 to 32. If fewer are left, all are used up and the answer is 0, not padded. */
uint32_t mubanlig_get_bits(const uint8_t *s, size_t s_len, size_t *position, uint8_t *error, int32_t n);
/* The same with the top bit as sign. */
int32_t mubanlig_get_sbits(const uint8_t *s, size_t s_len, size_t *position, uint8_t *error, int32_t n);
/* z zeros, a one, then z bits: 2^z - 1 and those bits; 32 zeros give 4294967295. */
uint32_t mubanlig_get_vlc(const uint8_t *s, size_t s_len, size_t *position, uint8_t *error);
/* A number below max, which is below 2^31; no bit for max 0 or 1. */
uint32_t mubanlig_get_uniform(const uint8_t *s, size_t s_len, size_t *position, uint8_t *error, uint32_t max);
/* def, held to max - 1, behind a zero; behind a one another number below max. max is below 2^31. */
uint32_t mubanlig_get_ref_uniform(const uint8_t *s, size_t s_len, size_t *position, uint8_t *error, uint32_t max, uint32_t def);
/* At most eight bytes of seven bits, the least first, up to 4294967295. */
uint32_t mubanlig_get_uleb128(const uint8_t *s, size_t s_len, size_t *position, uint8_t *error);
/* c ones and a zero, then k bits: c * 2^k and those bits; 32 - k ones give 4294967295. k is below 32. */
uint32_t mubanlig_get_golomb(const uint8_t *s, size_t s_len, size_t *position, uint8_t *error, uint32_t k);
/* A number below n, told by its distance from ref_val. ref_val is below n, n below 2^31, k from 0 to 31. */
uint32_t mubanlig_get_bits_subexp_u(const uint8_t *s, size_t s_len, size_t *position, uint8_t *error, uint32_t ref_val, uint32_t n, int32_t k);
/* A number above -n and below n, told by its distance from ref_val. n is 1 to 2^30. With ref_val n or more the error and 1 - n. */
int32_t mubanlig_get_bits_subexp(const uint8_t *s, size_t s_len, size_t *position, uint8_t *error, int32_t ref_val, uint32_t n);
/* Drops what is left of a byte begun. */
void mubanlig_bytealign(const uint8_t *s, size_t s_len, size_t *position);
/* The bytes begun; one of which some bits are used counts. */
size_t mubanlig_byte_pos(const uint8_t *s, size_t s_len, size_t position);
/* The bytes not begun. */
size_t mubanlig_remaining_bytes(const uint8_t *s, size_t s_len, size_t position);

/*
 * Records: segments and headers in libcapi.a, layouts and their rectangles in libcapi_tiles.a, frames' layouts in libcapi_frame.a. Each
 * answers a number of mubanlig_answer. A refused layout or frame leaves info, the starts and sb128 as they were; a refused header (1, 2,
 * 3) writes the zero record; refused rectangles leave out as it was.
 * They don't look at the error: short data may be accepted with the error set. Only a header is refused then.
 */

/* Features of 8 segments, of 16 if ext is set. The masks are ORed onto those given. Answers 0 or 5. */
uint32_t mubanlig_parse_seg_info(const uint8_t *s, size_t s_len, size_t *position, uint8_t *error,
    int16_t *delta_q, size_t delta_q_len, uint16_t *masks, size_t masks_len, uint8_t ext);
/*
 * A tile layout. sb128 and seq_sb128 are the superblock codes of frame and sequence, 0, 1, 2 for 64, 128, 256 samples; sbmul is 2 for
 * the codes 1 and 2, else 1 with equal codes. w and h are 1 to 65536, level 0 to 31, tier 0 or 1. Accepted, all starts are written: the
 * closing ones are col_start_sb[cols] and row_start_sb[rows], and the entries behind them become 0, whatever they were. Refused, the
 * buffers stay as they were, old entries included. Answers 0, 2, 4 or 5.
 */
uint32_t mubanlig_parse_tile_info(const uint8_t *s, size_t s_len, size_t *position, uint8_t *error,
    uint8_t *info, size_t info_len, uint16_t *col_start_sb, size_t col_start_sb_len, uint16_t *row_start_sb, size_t row_start_sb_len,
    int32_t sbmul, uint8_t sb128, uint8_t seq_sb128, int32_t w, int32_t h, uint8_t level, uint8_t tier);
/*
 * A sequence header; if strict is set, with its trailing one bit. Every number, byte and start is written, and the entries behind the
 * closing starts become 0. Answers 0, 1, 2, 3 or 5.
 */
uint32_t mubanlig_parse_seq_hdr(const uint8_t *s, size_t s_len, size_t *position, uint8_t *error,
    uint8_t strict, int64_t *hdr, size_t hdr_len,
    uint8_t *info, size_t info_len, uint16_t *col_start_sb, size_t col_start_sb_len, uint16_t *row_start_sb, size_t row_start_sb_len);
/*
 * A frame's superblock code and layout, the sequence's or read. seq_sb128 to present and the three buffers of the sequence's layout are
 * from its header. Accepted, the entries behind the closing starts become 0, read or reused, whatever the sequence's buffers have there.
 * Refused, sb128 and the frame's buffers stay as they were. Answers 0, 2, 4 (also where the sequence's record can't be used for a frame)
 * or 5.
 */
uint32_t mubanlig_parse_tile_info_frmhdr(const uint8_t *s, size_t s_len, size_t *position, uint8_t *error,
    uint8_t frame_type, int32_t width, int32_t height, uint8_t *sb128,
    uint8_t *info, size_t info_len, uint16_t *col_start_sb, size_t col_start_sb_len, uint16_t *row_start_sb, size_t row_start_sb_len,
    uint8_t seq_sb128, int32_t max_width, int32_t max_height, uint8_t level, uint8_t tier, uint8_t present,
    const uint8_t *seq_info, size_t seq_info_len,
    const uint16_t *seq_col_start_sb, size_t seq_col_start_sb_len, const uint16_t *seq_row_start_sb, size_t seq_row_start_sb_len);
/*
 * Left, top, width and height of each tile in samples: the top row first, and left to right within a row, so that the numbers of the
 * tile in a column and a row, both counted from 0, begin at out[4 * (row * columns + column)]. Numbers behind the last tile stay. sb128
 * is the code that the starts are counted in, w and h are the frame's width and height, 1 to 65536. Both ends of a tile are cut at the
 * frame's edge: one behind the edge begins there and is 0 wide or high. The areas of the tiles of a layout read fresh for that code, width
 * and height add up to w * h. Answers 0, 4 or 5.
 */
uint32_t mubanlig_tile_rectangles(const uint8_t *info, size_t info_len,
    const uint16_t *col_start_sb, size_t col_start_sb_len, const uint16_t *row_start_sb, size_t row_start_sb_len,
    uint8_t sb128, int32_t w, int32_t h, uint32_t *out, size_t out_len);

/*
 * Layouts within a limit, in libcapi_within.a. max_cols and max_rows are the most columns and rows that are taken: any numbers, as the
 * wall's or the panel's above. Each reads as the function without a limit, behind whose parameters they stand, and writes the same, zeros
 * behind the closing starts included. A layout that is accepted there and has more columns or more rows is refused with 6: info, all starts
 * and sb128 stay as they were, and the position and the error are those after the reading. So 2, 4 and 5 come first.
 */

/* mubanlig_parse_tile_info within a limit. Answers 0, 2, 4, 5 or 6. */
uint32_t mubanlig_parse_tile_info_within(const uint8_t *s, size_t s_len, size_t *position, uint8_t *error,
    uint8_t *info, size_t info_len, uint16_t *col_start_sb, size_t col_start_sb_len, uint16_t *row_start_sb, size_t row_start_sb_len,
    int32_t sbmul, uint8_t sb128, uint8_t seq_sb128, int32_t w, int32_t h, uint8_t level, uint8_t tier,
    uint8_t max_cols, uint8_t max_rows);
/* mubanlig_parse_tile_info_frmhdr within a limit, which is asked of a reused layout too. Answers 0, 2, 4, 5 or 6. */
uint32_t mubanlig_parse_tile_info_frmhdr_within(const uint8_t *s, size_t s_len, size_t *position, uint8_t *error,
    uint8_t frame_type, int32_t width, int32_t height, uint8_t *sb128,
    uint8_t *info, size_t info_len, uint16_t *col_start_sb, size_t col_start_sb_len, uint16_t *row_start_sb, size_t row_start_sb_len,
    uint8_t seq_sb128, int32_t max_width, int32_t max_height, uint8_t level, uint8_t tier, uint8_t present,
    const uint8_t *seq_info, size_t seq_info_len,
    const uint16_t *seq_col_start_sb, size_t seq_col_start_sb_len, const uint16_t *seq_row_start_sb, size_t seq_row_start_sb_len,
    uint8_t max_cols, uint8_t max_rows);

/*
 * Film grain parameters, in libcapi_grain.a. layout is that of the sequence. Accepted, all 186 numbers are written. Refused with 7 (more
 * than 14 points in a list, a position past 255, in I420 one chroma list empty and the other not, or the error set at the end, also where
 * it was set before) the zero record is written, and the position and the error are those where the reading stopped. 4 is a layout that
 * there is not. 5 is asked first, then 4; both leave fgd as it was. Answers 0, 4, 5 or 7.
 */
uint32_t mubanlig_parse_film_grain_data(const uint8_t *s, size_t s_len, size_t *position, uint8_t *error,
    uint8_t layout, int16_t *fgd, size_t fgd_len);

/*
 * A layout written as bits, in libcapi.a: those that mubanlig_parse_tile_info, with the same arguments and over the zero record,
 * reads as this record without setting the error. They stand in out most significant first, padded with zero bits to a byte; bytes behind
 * the last one stay. `bits` becomes how many bits they are. Refused, out stays as it was and `bits` becomes 0. What was read so is written
 * as the bits that were used.
 *
 * The record is its nine bytes, 65 column starts and 65 row starts, and all of these are asked: with an entry behind a closing start that
 * is not 0, no bits read as it. Two rows of bits can give the same tiles: for 600 by 128 samples, the codes 1 and 2, sbmul 2, level 0 and
 * tier 0, the bits 1110, 1111 and 00110 all give the columns 0 2 4 5. So the record's logarithms and its flag decide what is written.
 *
 * Short info or starts are 5 before all else; then arguments outside the domain are 4, a record that no bits read as is 8, and out with
 * fewer bytes than the bits need is 5. Answers 0, 4, 5 or 8.
 */
uint32_t mubanlig_write_tile_info(const uint8_t *info, size_t info_len,
    const uint16_t *col_start_sb, size_t col_start_sb_len, const uint16_t *row_start_sb, size_t row_start_sb_len,
    int32_t sbmul, uint8_t sb128, uint8_t seq_sb128, int32_t w, int32_t h, uint8_t level, uint8_t tier,
    uint8_t *out, size_t out_len, uint32_t *bits);

#ifdef __cplusplus
}
#endif

#endif
