/*
 * Calls every function of include/mubanlig.h, as C and as C++. Each buffer is lent as a block of memory of exactly the length told,
 * so that valgrind sees any reach past it. Prints each claim that fails, and ends with 1 if any does.
 */
#include "mubanlig.h"

#include <stdio.h>
#include <stdlib.h>
#include <string.h>

static unsigned long checks, failures;

static void check(int holds, const char *claim, int line)
{
    checks++;
    if (!holds) {
        failures++;
        fprintf(stderr, "line %d: %s\n", line, claim);
    }
}

#define CHECK(claim) check((claim) ? 1 : 0, #claim, __LINE__)

/* ---- What is lent ---- */

/* The numbers of out: enough for 16 tiles and some behind. */
#define OUT 70
/* The numbers of fgd, and some behind. */
#define GRAIN (MUBANLIG_GRAIN_NUMBERS + 2)
/* The bytes for a layout that is written, and some behind. */
#define WRITTEN (MUBANLIG_LAYOUT_BYTES + 3)

struct record {
    size_t position;
    uint8_t error;
    uint8_t sb128;
    int16_t delta_q[MUBANLIG_DELTAS];
    uint16_t masks[MUBANLIG_MASKS];
    int64_t hdr[MUBANLIG_HEADER_NUMBERS];
    uint8_t info[MUBANLIG_INFO_BYTES];
    uint16_t cols[MUBANLIG_STARTS];
    uint16_t rows[MUBANLIG_STARTS];
    uint32_t out[OUT];
    int16_t fgd[GRAIN];
    uint8_t written[WRITTEN];
    uint32_t bits;
};

/* How long each buffer is told to be. */
struct lengths {
    size_t delta_q, masks, hdr, info, cols, rows, out, fgd, written;
};

static const struct lengths LONG = {
    MUBANLIG_DELTAS, MUBANLIG_MASKS, MUBANLIG_HEADER_NUMBERS, MUBANLIG_INFO_BYTES, MUBANLIG_STARTS, MUBANLIG_STARTS, OUT,
    MUBANLIG_GRAIN_NUMBERS, WRITTEN
};

/* A copy in a block of its own; NULL for length 0. */
static void *lend(const void *from, size_t count, size_t size)
{
    void *block;
    if (count == 0) {
        return NULL;
    }
    block = malloc(count * size);
    if (block == NULL) {
        fprintf(stderr, "no memory\n");
        exit(2);
    }
    memcpy(block, from, count * size);
    return block;
}

static void take_back(void *to, void *block, size_t count, size_t size)
{
    if (block != NULL) {
        memcpy(to, block, count * size);
        free(block);
    }
}

#define LEND(type, field, from, count) type *field = (type *)lend(from, count, sizeof(type))
#define TAKE_BACK(field, to, count) take_back(to, field, count, sizeof(*field))

/* All bytes of it, so that records can be compared whole. */
static struct record filled(int byte)
{
    struct record r;
    memset(&r, byte, sizeof r);
    return r;
}

static int same(const struct record *a, const struct record *b)
{
    return a->position == b->position && a->error == b->error && a->sb128 == b->sb128
        && memcmp(a->delta_q, b->delta_q, sizeof a->delta_q) == 0 && memcmp(a->masks, b->masks, sizeof a->masks) == 0
        && memcmp(a->hdr, b->hdr, sizeof a->hdr) == 0 && memcmp(a->info, b->info, sizeof a->info) == 0
        && memcmp(a->cols, b->cols, sizeof a->cols) == 0 && memcmp(a->rows, b->rows, sizeof a->rows) == 0
        && memcmp(a->out, b->out, sizeof a->out) == 0 && memcmp(a->fgd, b->fgd, sizeof a->fgd) == 0
        && memcmp(a->written, b->written, sizeof a->written) == 0 && a->bits == b->bits;
}

/* ---- Calls ---- */

struct bytes {
    const uint8_t *s;
    size_t len;
};

static struct bytes none(void)
{
    struct bytes b = { NULL, 0 };
    return b;
}

static struct bytes some(const uint8_t *s, size_t len)
{
    struct bytes b;
    b.s = s;
    b.len = len;
    return b;
}

struct layout_args {
    int32_t sbmul;
    uint8_t sb128, seq_sb128;
    int32_t w, h;
    uint8_t level, tier;
};

struct frame_args {
    uint8_t frame_type;
    int32_t width, height;
    uint8_t seq_sb128;
    int32_t max_width, max_height;
    uint8_t level, tier, present;
};

static uint32_t seg_info(struct bytes b, struct record *r, struct lengths n, uint8_t ext)
{
    LEND(const uint8_t, s, b.s, b.len);
    LEND(int16_t, delta_q, r->delta_q, n.delta_q);
    LEND(uint16_t, masks, r->masks, n.masks);
    uint32_t answer = mubanlig_parse_seg_info(s, b.len, &r->position, &r->error, delta_q, n.delta_q, masks, n.masks, ext);
    free((void *)s);
    TAKE_BACK(delta_q, r->delta_q, n.delta_q);
    TAKE_BACK(masks, r->masks, n.masks);
    return answer;
}

/* Most columns and most rows. */
struct limit {
    uint8_t cols, rows;
};

static const struct limit WALL = { MUBANLIG_WALL_COLS, MUBANLIG_WALL_ROWS };
static const struct limit PANEL = { MUBANLIG_PANEL_COLS, MUBANLIG_PANEL_ROWS };

/* Without a limit if it is NULL. */
static uint32_t layout_in(struct bytes b, struct record *r, struct lengths n, struct layout_args a, const struct limit *limit)
{
    LEND(const uint8_t, s, b.s, b.len);
    LEND(uint8_t, info, r->info, n.info);
    LEND(uint16_t, cols, r->cols, n.cols);
    LEND(uint16_t, rows, r->rows, n.rows);
#define GIVEN s, b.len, &r->position, &r->error, info, n.info, cols, n.cols, rows, n.rows, \
    a.sbmul, a.sb128, a.seq_sb128, a.w, a.h, a.level, a.tier
    uint32_t answer = limit == NULL
        ? mubanlig_parse_tile_info(GIVEN)
        : mubanlig_parse_tile_info_within(GIVEN, limit->cols, limit->rows);
#undef GIVEN
    free((void *)s);
    TAKE_BACK(info, r->info, n.info);
    TAKE_BACK(cols, r->cols, n.cols);
    TAKE_BACK(rows, r->rows, n.rows);
    return answer;
}

static uint32_t layout(struct bytes b, struct record *r, struct lengths n, struct layout_args a)
{
    return layout_in(b, r, n, a, NULL);
}

static uint32_t header(struct bytes b, struct record *r, struct lengths n, uint8_t strict)
{
    LEND(const uint8_t, s, b.s, b.len);
    LEND(int64_t, hdr, r->hdr, n.hdr);
    LEND(uint8_t, info, r->info, n.info);
    LEND(uint16_t, cols, r->cols, n.cols);
    LEND(uint16_t, rows, r->rows, n.rows);
    uint32_t answer = mubanlig_parse_seq_hdr(s, b.len, &r->position, &r->error, strict, hdr, n.hdr,
        info, n.info, cols, n.cols, rows, n.rows);
    free((void *)s);
    TAKE_BACK(hdr, r->hdr, n.hdr);
    TAKE_BACK(info, r->info, n.info);
    TAKE_BACK(cols, r->cols, n.cols);
    TAKE_BACK(rows, r->rows, n.rows);
    return answer;
}

/* The sequence's layout is that of seq. Without a limit if it is NULL. */
static uint32_t frame_in(struct bytes b, struct record *r, struct lengths n, struct frame_args a, const struct record *seq, struct lengths m,
    const struct limit *limit)
{
    LEND(const uint8_t, s, b.s, b.len);
    LEND(uint8_t, info, r->info, n.info);
    LEND(uint16_t, cols, r->cols, n.cols);
    LEND(uint16_t, rows, r->rows, n.rows);
    LEND(const uint8_t, seq_info, seq->info, m.info);
    LEND(const uint16_t, seq_cols, seq->cols, m.cols);
    LEND(const uint16_t, seq_rows, seq->rows, m.rows);
#define GIVEN s, b.len, &r->position, &r->error, a.frame_type, a.width, a.height, &r->sb128, \
    info, n.info, cols, n.cols, rows, n.rows, a.seq_sb128, a.max_width, a.max_height, a.level, a.tier, a.present, \
    seq_info, m.info, seq_cols, m.cols, seq_rows, m.rows
    uint32_t answer = limit == NULL
        ? mubanlig_parse_tile_info_frmhdr(GIVEN)
        : mubanlig_parse_tile_info_frmhdr_within(GIVEN, limit->cols, limit->rows);
#undef GIVEN
    free((void *)s);
    free((void *)seq_info);
    free((void *)seq_cols);
    free((void *)seq_rows);
    TAKE_BACK(info, r->info, n.info);
    TAKE_BACK(cols, r->cols, n.cols);
    TAKE_BACK(rows, r->rows, n.rows);
    return answer;
}

static uint32_t frame(struct bytes b, struct record *r, struct lengths n, struct frame_args a, const struct record *seq, struct lengths m)
{
    return frame_in(b, r, n, a, seq, m, NULL);
}

static uint32_t rectangles(struct record *r, struct lengths n, uint8_t sb128, int32_t w, int32_t h)
{
    LEND(const uint8_t, info, r->info, n.info);
    LEND(const uint16_t, cols, r->cols, n.cols);
    LEND(const uint16_t, rows, r->rows, n.rows);
    LEND(uint32_t, out, r->out, n.out);
    uint32_t answer = mubanlig_tile_rectangles(info, n.info, cols, n.cols, rows, n.rows, sb128, w, h, out, n.out);
    free((void *)info);
    free((void *)cols);
    free((void *)rows);
    TAKE_BACK(out, r->out, n.out);
    return answer;
}

static uint32_t film_grain(struct bytes b, struct record *r, struct lengths n, uint8_t pixel_layout)
{
    LEND(const uint8_t, s, b.s, b.len);
    LEND(int16_t, fgd, r->fgd, n.fgd);
    uint32_t answer = mubanlig_parse_film_grain_data(s, b.len, &r->position, &r->error, pixel_layout, fgd, n.fgd);
    free((void *)s);
    TAKE_BACK(fgd, r->fgd, n.fgd);
    return answer;
}

static uint32_t write_layout(struct record *r, struct lengths n, struct layout_args a)
{
    LEND(const uint8_t, info, r->info, n.info);
    LEND(const uint16_t, cols, r->cols, n.cols);
    LEND(const uint16_t, rows, r->rows, n.rows);
    LEND(uint8_t, written, r->written, n.written);
    uint32_t answer = mubanlig_write_tile_info(info, n.info, cols, n.cols, rows, n.rows,
        a.sbmul, a.sb128, a.seq_sb128, a.w, a.h, a.level, a.tier, written, n.written, &r->bits);
    free((void *)info);
    free((void *)cols);
    free((void *)rows);
    TAKE_BACK(written, r->written, n.written);
    return answer;
}

#define READINGS 10

/* The reading of a number; signed ones as unsigned. */
static uint32_t reading(int which, struct bytes b, size_t *position, uint8_t *error, uint32_t x, uint32_t y, uint32_t z)
{
    LEND(const uint8_t, s, b.s, b.len);
    uint32_t value = 0;
    switch (which) {
    case 0:
        value = mubanlig_get_bit(s, b.len, position, error);
        break;
    case 1:
        value = mubanlig_get_bits(s, b.len, position, error, (int32_t)x);
        break;
    case 2:
        value = (uint32_t)mubanlig_get_sbits(s, b.len, position, error, (int32_t)x);
        break;
    case 3:
        value = mubanlig_get_vlc(s, b.len, position, error);
        break;
    case 4:
        value = mubanlig_get_uniform(s, b.len, position, error, x);
        break;
    case 5:
        value = mubanlig_get_ref_uniform(s, b.len, position, error, x, y);
        break;
    case 6:
        value = mubanlig_get_uleb128(s, b.len, position, error);
        break;
    case 7:
        value = mubanlig_get_golomb(s, b.len, position, error, x);
        break;
    case 8:
        value = mubanlig_get_bits_subexp_u(s, b.len, position, error, x, y, (int32_t)z);
        break;
    case 9:
        value = (uint32_t)mubanlig_get_bits_subexp(s, b.len, position, error, (int32_t)x, y);
        break;
    }
    free((void *)s);
    return value;
}

/* ---- Claims ---- */

static const struct layout_args SMALL = { 1, 0, 0, 256, 128, 0, 0 };

static struct layout_args sized(int32_t w, int32_t h)
{
    struct layout_args a = SMALL;
    a.w = w;
    a.h = h;
    return a;
}

static void interfaces(void)
{
    CHECK(mubanlig_bits_interface_3() == MUBANLIG_INTERFACE);
    CHECK(mubanlig_interface_3() == MUBANLIG_INTERFACE);
    CHECK(mubanlig_write_interface_3() == MUBANLIG_INTERFACE);
    CHECK(mubanlig_tiles_interface_3() == MUBANLIG_INTERFACE);
    CHECK(mubanlig_frame_interface_3() == MUBANLIG_INTERFACE);
    CHECK(mubanlig_within_interface_3() == MUBANLIG_INTERFACE);
    CHECK(mubanlig_grain_interface_3() == MUBANLIG_INTERFACE);
}

static void readings_of_known_bytes(void)
{
    static const uint8_t S[] = { 0xA5, 0x0F, 0xF0, 0x81, 0x80 };
    size_t position = 0;
    uint8_t error = 0;
    CHECK(mubanlig_get_bit(S, sizeof S, &position, &error) == 1 && position == 1);
    CHECK(mubanlig_get_bits(S, sizeof S, &position, &error, 3) == 2 && position == 4);
    CHECK(mubanlig_byte_pos(S, sizeof S, position) == 1);
    CHECK(mubanlig_remaining_bytes(S, sizeof S, position) == 4);
    CHECK(mubanlig_get_sbits(S, sizeof S, &position, &error, 4) == 5 && position == 8);
    CHECK(mubanlig_get_vlc(S, sizeof S, &position, &error) == 30 && position == 17);
    mubanlig_bytealign(S, sizeof S, &position);
    CHECK(position == 24 && error == 0);
    CHECK(mubanlig_get_uleb128(S, sizeof S, &position, &error) == 1 && position == 40);
    /* The data ran out inside it: the error, which stays. */
    CHECK(error == 1);
    CHECK(mubanlig_get_uniform(S, sizeof S, &position, &error, 1) == 0 && error == 1);
    position = 0;
    error = 0;
    CHECK(mubanlig_get_uniform(S, sizeof S, &position, &error, 3) == 1 && position == 2);
    CHECK(mubanlig_get_golomb(S, sizeof S, &position, &error, 0) == 1 && position == 4);
    CHECK(mubanlig_get_ref_uniform(S, sizeof S, &position, &error, 5, 9) == 4 && position == 5);
    CHECK(error == 0);
    CHECK(mubanlig_get_bits(S, sizeof S, &position, &error, 33) == 0 && position == 5 && error == 1);
    error = 0;
    CHECK(mubanlig_get_bits_subexp_u(S, sizeof S, &position, &error, 3, 3, 1) == 0 && position == 5 && error == 1);
    error = 0;
    CHECK(mubanlig_get_bits_subexp(S, sizeof S, &position, &error, 3, 3) == -2 && error == 1);
}

/* No data as NULL: what each function answers, and no bit is used. */
static void no_data(void)
{
    int which;
    struct record r, zero = filled(0);
    for (which = 0; which < READINGS; which++) {
        size_t position = 0;
        uint8_t error = 0;
        reading(which, none(), &position, &error, 5, 7, 2);
        CHECK(position == 0 && error == 1);
    }
    CHECK(mubanlig_byte_pos(NULL, 0, 0) == 0);
    CHECK(mubanlig_remaining_bytes(NULL, 0, 7) == 0);
    r.position = 9;
    mubanlig_bytealign(NULL, 0, &r.position);
    CHECK(r.position == 0);
    r = filled(0);
    CHECK(seg_info(none(), &r, LONG, 1) == MUBANLIG_ACCEPTED && r.error == 1);
    r = filled(0);
    CHECK(layout(none(), &r, LONG, sized(4096, 64)) == MUBANLIG_ACCEPTED);
    CHECK(r.error == 1 && r.info[MUBANLIG_INFO_COLS] == 64 && r.cols[64] == 64);
    r = filled(0x55);
    r.position = 0;
    r.error = 0;
    CHECK(header(none(), &r, LONG, 0) == MUBANLIG_INVALID_SEQUENCE_HEADER);
    CHECK(memcmp(r.hdr, zero.hdr, sizeof r.hdr) == 0 && memcmp(r.info, zero.info, sizeof r.info) == 0);
    CHECK(memcmp(r.cols, zero.cols, sizeof r.cols) == 0 && memcmp(r.rows, zero.rows, sizeof r.rows) == 0);
    r = filled(0);
    CHECK(mubanlig_tile_rectangles(NULL, 0, NULL, 0, NULL, 0, 0, 64, 64, NULL, 0) == MUBANLIG_SHORT_BUFFER);
    CHECK(mubanlig_parse_tile_info_within(NULL, 0, &r.position, &r.error, NULL, 0, NULL, 0, NULL, 0, 1, 0, 0, 64, 64, 0, 0,
        MUBANLIG_PANEL_COLS, MUBANLIG_PANEL_ROWS) == MUBANLIG_SHORT_BUFFER);
    CHECK(mubanlig_parse_tile_info_frmhdr_within(NULL, 0, &r.position, &r.error, MUBANLIG_FRAME_KEY, 64, 64, &r.sb128,
        NULL, 0, NULL, 0, NULL, 0, 0, 64, 64, 0, 0, MUBANLIG_OFF, NULL, 0, NULL, 0, NULL, 0,
        MUBANLIG_PANEL_COLS, MUBANLIG_PANEL_ROWS) == MUBANLIG_SHORT_BUFFER);
    CHECK(mubanlig_parse_film_grain_data(NULL, 0, &r.position, &r.error, MUBANLIG_I420, NULL, 0) == MUBANLIG_SHORT_BUFFER);
    r.bits = 7;
    CHECK(mubanlig_write_tile_info(NULL, 0, NULL, 0, NULL, 0, 1, 0, 0, 64, 64, 0, 0, NULL, 0, &r.bits) == MUBANLIG_SHORT_BUFFER);
    CHECK(same(&r, &zero));
}

/* Where a start stands, cut at the frame's edge. */
static uint32_t edge(uint16_t start, uint8_t sb128, int32_t most)
{
    const uint32_t samples = start * (64u << sb128);
    return samples < (uint32_t)most ? samples : (uint32_t)most;
}

/* Each tile's numbers stand at its place, row by row. Answers the sum of the areas. */
static uint64_t check_rectangles(const struct record *r, uint8_t sb128, int32_t w, int32_t h)
{
    const size_t columns = r->info[MUBANLIG_INFO_COLS];
    uint64_t area = 0;
    size_t col, row;
    for (row = 0; row < r->info[MUBANLIG_INFO_ROWS]; row++) {
        for (col = 0; col < columns; col++) {
            const uint32_t *tile = r->out + MUBANLIG_TILE_NUMBERS * (row * columns + col);
            CHECK(tile[0] == edge(r->cols[col], sb128, w) && tile[0] + tile[2] == edge(r->cols[col + 1], sb128, w));
            CHECK(tile[1] == edge(r->rows[row], sb128, h) && tile[1] + tile[3] == edge(r->rows[row + 1], sb128, h));
            area += (uint64_t)tile[2] * tile[3];
        }
    }
    return area;
}

static void a_layout_and_its_rectangles(void)
{
    static const uint8_t S[] = { 0x20 };
    static const uint32_t WHOLE[] = { 0, 2, 3, 4 };
    struct record r = filled(0);
    struct lengths n = LONG;
    size_t i;
    CHECK(layout(some(S, sizeof S), &r, LONG, SMALL) == MUBANLIG_ACCEPTED);
    CHECK(r.position == 5 && r.error == 0);
    CHECK(r.info[MUBANLIG_INFO_UNIFORM] == 0 && r.info[MUBANLIG_INFO_COLS] == 3 && r.info[MUBANLIG_INFO_ROWS] == 2);
    for (i = 0; i < 4; i++) {
        CHECK(r.cols[i] == WHOLE[i]);
    }
    CHECK(r.rows[0] == 0 && r.rows[1] == 1 && r.rows[2] == 2);
    n.out = 23;
    CHECK(rectangles(&r, n, 0, 256, 128) == MUBANLIG_SHORT_BUFFER && r.out[0] == 0);
    n.out = 25;
    r.out[24] = 7;
    CHECK(rectangles(&r, n, 0, 256, 128) == MUBANLIG_ACCEPTED && r.out[24] == 7);
    CHECK(check_rectangles(&r, 0, 256, 128) == 256 * 128);
    /* In a smaller frame tiles are cut and empty, and in a larger one not stretched. */
    CHECK(rectangles(&r, n, 0, 130, 60) == MUBANLIG_ACCEPTED && r.out[24] == 7);
    CHECK(check_rectangles(&r, 0, 130, 60) == 130 * 60);
    CHECK(rectangles(&r, n, 0, 65536, 65536) == MUBANLIG_ACCEPTED && r.out[24] == 7);
    CHECK(check_rectangles(&r, 0, 65536, 65536) == 256 * 128);
}

static void a_header(void)
{
    uint8_t s[] = { 0x82, 0x05, 0x00, 0x00, 0x00, 0x80, 0x10, 0x02 };
    struct record r = filled(0);
    CHECK(header(some(s, sizeof s), &r, LONG, 1) == MUBANLIG_ACCEPTED);
    CHECK(r.hdr[MUBANLIG_HDR_MAX_WIDTH] == 1 && r.hdr[MUBANLIG_HDR_MAX_HEIGHT] == 1);
    CHECK(r.hdr[MUBANLIG_HDR_LAYOUT] == MUBANLIG_I400 && r.hdr[MUBANLIG_HDR_TILING_PRESENT] == MUBANLIG_OFF);
    s[7] = 0;
    r = filled(0);
    /* Any byte but 0 is a set flag. */
    CHECK(header(some(s, sizeof s), &r, LONG, 0x80) == MUBANLIG_INVALID_TRAILING_BITS);
    r = filled(0);
    CHECK(header(some(s, sizeof s), &r, LONG, 0) == MUBANLIG_ACCEPTED);
    r = filled(0);
    CHECK(header(some(s, 7), &r, LONG, 0) == MUBANLIG_INVALID_SEQUENCE_HEADER);
}

/* Are the entries behind the closing starts 0? Only for counts of at most 64. */
static int cleared(const struct record *r)
{
    size_t i;
    int holds = 1;
    for (i = r->info[MUBANLIG_INFO_COLS] + (size_t)1; i < MUBANLIG_STARTS; i++) {
        holds &= r->cols[i] == 0;
    }
    for (i = r->info[MUBANLIG_INFO_ROWS] + (size_t)1; i < MUBANLIG_STARTS; i++) {
        holds &= r->rows[i] == 0;
    }
    return holds;
}

/* An inter frame 192 wide in a sequence 256 wide reuses its columns 0 2 4 whole. */
static void a_frame(void)
{
    static const uint8_t S[] = { 0xC0 };
    static const struct frame_args A = { MUBANLIG_FRAME_INTER, 192, 64, 0, 256, 64, 0, 0, MUBANLIG_ON };
    struct record seq = filled(0), r = filled(0);
    size_t i;
    CHECK(layout(some(S, sizeof S), &seq, LONG, sized(256, 64)) == MUBANLIG_ACCEPTED);
    CHECK(seq.info[MUBANLIG_INFO_UNIFORM] == 1);
    CHECK(frame(none(), &r, LONG, A, &seq, LONG) == MUBANLIG_ACCEPTED);
    CHECK(r.position == 0 && r.error == 0 && r.cols[0] == 0 && r.cols[1] == 2 && r.cols[2] == 4);
    CHECK(memcmp(r.info, seq.info, sizeof r.info) == 0 && cleared(&r));
    /* Old numbers behind the closing starts, the sequence's and the frame's. */
    for (i = 3; i < MUBANLIG_STARTS; i++) {
        seq.cols[i] = 77;
    }
    for (i = 2; i < MUBANLIG_STARTS; i++) {
        seq.rows[i] = 77;
    }
    r = filled(0x2C);
    r.position = 0;
    r.error = 0;
    CHECK(frame(none(), &r, LONG, A, &seq, LONG) == MUBANLIG_ACCEPTED);
    CHECK(r.cols[1] == 2 && r.cols[2] == 4 && r.rows[1] == 1 && cleared(&r));
}

/* Are all but the place the same? */
static int keeps_all(const struct record *after, const struct record *before)
{
    struct record r = *after;
    r.position = before->position;
    r.error = before->error;
    return same(&r, before);
}

/* A layout over a long one: three columns and two rows over 64 and 64. A refused one leaves all that was there. */
static void an_old_layout(void)
{
    static const uint8_t S[] = { 0x20 };
    struct record old = filled(0), r;
    CHECK(layout(none(), &old, LONG, sized(4096, 4096)) == MUBANLIG_ACCEPTED);
    CHECK(old.info[MUBANLIG_INFO_COLS] == 64 && old.info[MUBANLIG_INFO_ROWS] == 64);
    old.position = 0;
    old.error = 0;
    r = old;
    CHECK(layout(some(S, sizeof S), &r, LONG, SMALL) == MUBANLIG_ACCEPTED);
    CHECK(r.info[MUBANLIG_INFO_COLS] == 3 && r.cols[3] == 4 && r.info[MUBANLIG_INFO_ROWS] == 2 && r.rows[2] == 2 && cleared(&r));
    r = old;
    CHECK(layout(none(), &r, LONG, sized(4160, 64)) == MUBANLIG_INVALID_TILE_INFO && keeps_all(&r, &old));
    r = old;
    CHECK(layout_in(none(), &r, LONG, sized(17 * 64, 64), &PANEL) == MUBANLIG_TOO_MANY_TILES && keeps_all(&r, &old));
}

/* What a call within a limit has to give, seen from what was given and from the call without one. */
static int limited(const struct record *given, const struct record *on_wall, uint32_t wall_answer,
    const struct record *r, uint32_t answer, struct limit limit)
{
    if (wall_answer == MUBANLIG_ACCEPTED
        && (on_wall->info[MUBANLIG_INFO_COLS] > limit.cols || on_wall->info[MUBANLIG_INFO_ROWS] > limit.rows)) {
        return answer == MUBANLIG_TOO_MANY_TILES && keeps_all(r, given)
            && r->position == on_wall->position && r->error == on_wall->error;
    }
    return answer == wall_answer && same(r, on_wall);
}

/* Layouts without data, each superblock a tile, on both sides of limits; frames that reuse 17 columns and 9 rows, and that read them. */
static void within_limits(void)
{
    static const struct limit LIMITS[] = {
        { MUBANLIG_WALL_COLS, MUBANLIG_WALL_ROWS }, { MUBANLIG_PANEL_COLS, MUBANLIG_PANEL_ROWS },
        { 0, 0 }, { 0, 255 }, { 255, 0 }, { 255, 255 }, { 17, 9 }, { 16, 9 }, { 17, 8 }, { 1, 1 }
    };
    static const int32_t SIZES[][2] = { { 16, 8 }, { 17, 8 }, { 16, 9 }, { 17, 9 }, { 1, 1 }, { 64, 64 }, { 65, 1 }, { 1, 65 }, { 0, 1 } };
    static const struct frame_args A = { MUBANLIG_FRAME_INTER, 17 * 64, 9 * 64, 0, 17 * 64, 9 * 64, 0, 0, MUBANLIG_ON };
    struct record given = filled(0x2C), seq = filled(0), on_wall, r;
    uint32_t wall_answer, answer;
    size_t i, j;
    given.position = 0;
    given.error = 0;
    r = given;
    CHECK(layout_in(none(), &r, LONG, sized(4096, 64), &WALL) == MUBANLIG_ACCEPTED && r.info[MUBANLIG_INFO_COLS] == 64);
    r = given;
    CHECK(layout_in(none(), &r, LONG, sized(4096, 64), &PANEL) == MUBANLIG_TOO_MANY_TILES && r.error == 1 && keeps_all(&r, &given));
    CHECK(layout(none(), &seq, LONG, sized(17 * 64, 9 * 64)) == MUBANLIG_ACCEPTED);
    CHECK(seq.info[MUBANLIG_INFO_COLS] == 17 && seq.info[MUBANLIG_INFO_ROWS] == 9);
    for (i = 0; i < sizeof LIMITS / sizeof LIMITS[0]; i++) {
        for (j = 0; j < sizeof SIZES / sizeof SIZES[0]; j++) {
            struct layout_args a = sized(64 * SIZES[j][0], 64 * SIZES[j][1]);
            on_wall = given;
            wall_answer = layout(none(), &on_wall, LONG, a);
            r = given;
            answer = layout_in(none(), &r, LONG, a, &LIMITS[i]);
            CHECK(limited(&given, &on_wall, wall_answer, &r, answer, LIMITS[i]));
        }
        /* Reused, read, of no such type and of no such presence. */
        for (j = 0; j < 4; j++) {
            struct frame_args a = A;
            if (j == 1) {
                a.present = MUBANLIG_OFF;
            } else if (j == 2) {
                a.frame_type = 4;
            } else if (j == 3) {
                a.present = 3;
            }
            on_wall = given;
            wall_answer = frame(none(), &on_wall, LONG, a, &seq, LONG);
            CHECK(wall_answer == (j < 2 ? MUBANLIG_ACCEPTED : MUBANLIG_WRONG_ARGUMENTS));
            r = given;
            answer = frame_in(none(), &r, LONG, a, &seq, LONG, &LIMITS[i]);
            CHECK(limited(&given, &on_wall, wall_answer, &r, answer, LIMITS[i]));
        }
    }
}

/* Is what a film grain call left the record with so many first numbers, and behind them what was given? */
static int left_grain(const struct record *after, const struct record *before, const int16_t *numbers)
{
    struct record r = *after;
    int holds = memcmp(r.fgd, numbers, MUBANLIG_GRAIN_NUMBERS * sizeof *numbers) == 0;
    memcpy(r.fgd, before->fgd, MUBANLIG_GRAIN_NUMBERS * sizeof *numbers);
    return holds && keeps_all(&r, before);
}

/* All planes with points, in buffers that are long enough and longer. */
static void a_film_grain(void)
{
    static const uint8_t S[] = {
        0x17, 0x84, 0x10, 0x20, 0x60, 0x1D, 0xFF, 0xFF, 0x10, 0x43, 0xA3, 0xE3, 0x0F, 0xE0, 0x1F,
        0xF0, 0x10, 0x2F, 0xE8, 0x1F, 0xC1, 0x0B, 0xEC, 0x01, 0xFE, 0x00, 0x81, 0x7F, 0xFF, 0xF8
    };
    static const struct { int at; int16_t number; } FIELDS[] = {
        { MUBANLIG_FGD_NUM_POINTS, 2 }, { MUBANLIG_FGD_NUM_POINTS + 1, 1 }, { MUBANLIG_FGD_NUM_POINTS + 2, 1 },
        { MUBANLIG_FGD_POINTS, 16 }, { MUBANLIG_FGD_POINTS + 1, 32 }, { MUBANLIG_FGD_POINTS + 2, 80 }, { MUBANLIG_FGD_POINTS + 3, 96 },
        { MUBANLIG_FGD_POINTS + 28, 127 }, { MUBANLIG_FGD_POINTS + 29, 255 },
        { MUBANLIG_FGD_POINTS + 56, 1 }, { MUBANLIG_FGD_POINTS + 57, 1 },
        { MUBANLIG_FGD_SCALING_SHIFT, 11 }, { MUBANLIG_FGD_AR_COEFF_LAG, 1 },
        { MUBANLIG_FGD_AR_COEFFS, -1 }, { MUBANLIG_FGD_AR_COEFFS + 1, 1 }, { MUBANLIG_FGD_AR_COEFFS + 3, 15 },
        { MUBANLIG_FGD_AR_COEFFS + 28, -128 }, { MUBANLIG_FGD_AR_COEFFS + 29, 127 },
        { MUBANLIG_FGD_AR_COEFFS + 31, 1 }, { MUBANLIG_FGD_AR_COEFFS + 32, -1 },
        { MUBANLIG_FGD_AR_COEFFS + 56, -32 }, { MUBANLIG_FGD_AR_COEFFS + 57, 31 },
        { MUBANLIG_FGD_AR_COEFFS + 59, 1 }, { MUBANLIG_FGD_AR_COEFFS + 60, -1 },
        { MUBANLIG_FGD_AR_COEFF_SHIFT, 7 }, { MUBANLIG_FGD_GRAIN_SCALE_SHIFT, 2 },
        { MUBANLIG_FGD_UV_MULT, -128 }, { MUBANLIG_FGD_UV_MULT + 1, 1 },
        { MUBANLIG_FGD_UV_LUMA_MULT, 127 }, { MUBANLIG_FGD_UV_LUMA_MULT + 1, -1 },
        { MUBANLIG_FGD_UV_OFFSET, -256 }, { MUBANLIG_FGD_UV_OFFSET + 1, 255 },
        { MUBANLIG_FGD_OVERLAP_FLAG, 1 }, { MUBANLIG_FGD_CLIP_TO_RESTRICTED_RANGE, 1 },
        { MUBANLIG_FGD_MC_IDENTITY, 1 }, { MUBANLIG_FGD_BLOCK_SIZE, 1 }
    };
    int16_t numbers[MUBANLIG_GRAIN_NUMBERS];
    struct record given = filled(0x2C), r;
    struct lengths n = LONG;
    size_t i;
    memset(numbers, 0, sizeof numbers);
    for (i = 0; i < sizeof FIELDS / sizeof FIELDS[0]; i++) {
        numbers[FIELDS[i].at] = FIELDS[i].number;
    }
    given.position = 0;
    given.error = 0;
    for (; n.fgd <= GRAIN; n.fgd++) {
        r = given;
        CHECK(film_grain(some(S, sizeof S), &r, n, MUBANLIG_I420) == MUBANLIG_ACCEPTED && r.position == 237 && r.error == 0);
        CHECK(left_grain(&r, &given, numbers));
    }
}

/* Refused by the reading: the zero record. A layout that there is not: nothing changes. */
static void refused_film_grain(void)
{
    static const uint8_t POINTS[] = { 0xF0 }, POSITION[] = { 0x2E, 0x7F, 0x80, 0x04 }, LISTS[] = { 0x00, 0x80, 0x00 }, ZEROS[3] = { 0, 0, 0 };
    static const struct { struct bytes b; uint8_t pixel_layout, error; size_t end; uint8_t end_error; } REFUSED[] = {
        { { POINTS, sizeof POINTS }, MUBANLIG_I400, 0, 4, 0 },
        { { POSITION, sizeof POSITION }, MUBANLIG_I400, 0, 30, 0 },
        { { LISTS, sizeof LISTS }, MUBANLIG_I420, 0, 24, 0 },
        { { LISTS, sizeof LISTS }, MUBANLIG_I422, 0, 24, 1 },
        { { ZEROS, sizeof ZEROS }, MUBANLIG_I444, 9, 24, 9 },
        { { ZEROS, 1 }, MUBANLIG_I400, 0, 8, 1 },
        { { NULL, 0 }, MUBANLIG_I420, 0, 0, 1 }
    };
    static const uint8_t NONE[] = { 4, 5, 128, 255 };
    int16_t zeros[MUBANLIG_GRAIN_NUMBERS];
    struct record given = filled(0x2C), r;
    struct lengths n = LONG;
    size_t i;
    memset(zeros, 0, sizeof zeros);
    given.position = 0;
    for (; n.fgd <= GRAIN; n.fgd++) {
        for (i = 0; i < sizeof REFUSED / sizeof REFUSED[0]; i++) {
            r = given;
            r.error = REFUSED[i].error;
            CHECK(film_grain(REFUSED[i].b, &r, n, REFUSED[i].pixel_layout) == MUBANLIG_INVALID_FILM_GRAIN_DATA);
            CHECK(r.position == REFUSED[i].end && r.error == REFUSED[i].end_error && left_grain(&r, &given, zeros));
        }
        for (i = 0; i < sizeof NONE; i++) {
            r = given;
            CHECK(film_grain(some(ZEROS, sizeof ZEROS), &r, n, NONE[i]) == MUBANLIG_WRONG_ARGUMENTS && same(&r, &given));
        }
    }
}

/* Was the call refused with this number: no bits, and all else as it was? */
static int refused_writing(struct record *r, struct lengths n, struct layout_args a, uint32_t number)
{
    struct record given = *r;
    given.bits = 0;
    r->bits = 77;
    return write_layout(r, n, a) == number && same(r, &given);
}

/* 600 by 128 samples, the codes 1 and 2: 1110, 1111 and 00110 give the same tiles, and are written as they were read. */
static void a_written_layout(void)
{
    static const struct layout_args A = { 2, 1, 2, 600, 128, 0, 0 };
    static const struct { uint8_t byte; uint32_t bits; } ROWS[] = { { 0xE0, 4 }, { 0xF0, 4 }, { 0x30, 5 } };
    struct lengths n = LONG;
    struct record r, back, first = filled(0);
    size_t i;
    CHECK(layout(some(&ROWS[0].byte, 1), &first, LONG, A) == MUBANLIG_ACCEPTED);
    for (i = 0; i < sizeof ROWS / sizeof ROWS[0]; i++) {
        struct record fresh = filled(0);
        CHECK(layout(some(&ROWS[i].byte, 1), &fresh, LONG, A) == MUBANLIG_ACCEPTED && fresh.position == ROWS[i].bits);
        CHECK(memcmp(fresh.cols, first.cols, sizeof fresh.cols) == 0 && memcmp(fresh.rows, first.rows, sizeof fresh.rows) == 0);
        memset(fresh.written, 0xA5, sizeof fresh.written);
        for (n.written = 1; n.written <= 3; n.written++) {
            r = fresh;
            CHECK(write_layout(&r, n, A) == MUBANLIG_ACCEPTED && r.bits == ROWS[i].bits && r.written[0] == ROWS[i].byte);
            r.written[0] = fresh.written[0];
            r.bits = fresh.bits;
            CHECK(same(&r, &fresh));
        }
        /* A flag is any byte but 0. */
        r = fresh;
        r.info[MUBANLIG_INFO_UNIFORM] = (uint8_t)(0x80 * r.info[MUBANLIG_INFO_UNIFORM]);
        CHECK(write_layout(&r, LONG, A) == MUBANLIG_ACCEPTED && r.bits == ROWS[i].bits);
        back = filled(0);
        CHECK(layout(some(r.written, sizeof r.written), &back, LONG, A) == MUBANLIG_ACCEPTED && back.position == r.bits && back.error == 0);
        CHECK(memcmp(back.info, fresh.info, sizeof back.info) == 0 && memcmp(back.cols, fresh.cols, sizeof back.cols) == 0);
        CHECK(memcmp(back.rows, fresh.rows, sizeof back.rows) == 0);
    }
}

/* Short parts of the layout first, then the arguments, the record and the bytes. */
static void refused_layouts(void)
{
    static const uint8_t S[] = { 0xF0 };
    static const struct layout_args A = { 2, 1, 2, 600, 128, 0, 0 };
    struct record fresh = filled(0), r;
    size_t i, j;
    CHECK(layout(some(S, sizeof S), &fresh, LONG, A) == MUBANLIG_ACCEPTED);
    memset(fresh.written, 0xA5, sizeof fresh.written);
    for (j = 0; j < 2; j++) {
        struct lengths n = LONG;
        n.written = j;
        r = fresh;
        CHECK(j == 0 ? refused_writing(&r, n, A, MUBANLIG_SHORT_BUFFER) : write_layout(&r, n, A) == MUBANLIG_ACCEPTED);
        /* Each byte of info, a start, both closing ones, and the first and the last behind each of these. */
        for (i = 0; i < 16; i++) {
            struct layout_args wrong = A;
            r = fresh;
            if (i < 9) {
                r.info[i] = (uint8_t)(r.info[i] == 0 ? 1 : r.info[i] == 3 ? 7 : 0);
            } else if (i == 9) {
                r.cols[1]++;
            } else if (i == 10) {
                r.cols[3]++;
            } else if (i == 11) {
                r.rows[1]++;
            } else if (i < 14) {
                r.cols[i == 12 ? 4 : 64] = 5;
            } else {
                r.rows[i == 14 ? 2 : 64] = 1;
            }
            CHECK(refused_writing(&r, n, A, MUBANLIG_NO_SUCH_LAYOUT));
            wrong.h = i % 2 ? 0 : 65537;
            CHECK(refused_writing(&r, n, wrong, MUBANLIG_WRONG_ARGUMENTS));
            n.cols--;
            CHECK(refused_writing(&r, n, wrong, MUBANLIG_SHORT_BUFFER));
            n.cols++;
        }
        for (i = 0; i < 6; i++) {
            struct layout_args wrong = A;
            if (i == 0) {
                wrong.sbmul = 1;
            } else if (i == 1) {
                wrong.sb128 = 3;
            } else if (i == 2) {
                wrong.seq_sb128 = 1;
            } else if (i == 3) {
                wrong.w = -1;
            } else if (i == 4) {
                wrong.level = 32;
            } else {
                wrong.tier = 2;
            }
            r = fresh;
            CHECK(refused_writing(&r, n, wrong, MUBANLIG_WRONG_ARGUMENTS));
        }
    }
}

/* Refused calls, and what was lent comes back as it was. */
static void refusals(void)
{
    static const uint8_t S[] = { 0xFF, 0xFF };
    static const struct frame_args A = { MUBANLIG_FRAME_KEY, 64, 64, 0, 64, 64, 0, 0, MUBANLIG_ON };
    static const uint8_t LAYOUT[] = { 7, 44, 2, 44, 200, 9, 8, 77, 232 };
    struct record given = filled(0x2C), seq = filled(0), r;
    struct frame_args a = A;
    size_t i;
    given.position = 3;
    given.error = 0;
    memcpy(given.info, LAYOUT, sizeof LAYOUT);

    r = given;
    CHECK(layout(some(S, sizeof S), &r, LONG, sized(0, 64)) == MUBANLIG_WRONG_ARGUMENTS && same(&r, &given));
    r = given;
    CHECK(layout(some(S, sizeof S), &r, LONG, sized(64, 65537)) == MUBANLIG_WRONG_ARGUMENTS && same(&r, &given));

    /* 65 superblocks of one column each: the bits are used up, nothing else changes. */
    r = given;
    r.position = 0;
    CHECK(layout(none(), &r, LONG, sized(4160, 64)) == MUBANLIG_INVALID_TILE_INFO && r.position == 0 && r.error == 1);
    r.position = given.position;
    r.error = given.error;
    CHECK(same(&r, &given));

    /* A sequence's record that can't be used: too many columns, no row, a logarithm above 6, a start above 1024. */
    seq.info[MUBANLIG_INFO_COLS] = 1;
    seq.info[MUBANLIG_INFO_ROWS] = 1;
    r = given;
    CHECK(frame(some(S, sizeof S), &r, LONG, a, &seq, LONG) == MUBANLIG_ACCEPTED);
    for (i = 0; i < 4; i++) {
        struct record bad = seq;
        if (i == 0) {
            bad.info[MUBANLIG_INFO_COLS] = 65;
        } else if (i == 1) {
            bad.info[MUBANLIG_INFO_ROWS] = 0;
        } else if (i == 2) {
            bad.info[MUBANLIG_INFO_LOG2_COLS] = 7;
        } else {
            bad.cols[1] = 1025;
        }
        r = given;
        CHECK(frame(some(S, sizeof S), &r, LONG, a, &bad, LONG) == MUBANLIG_WRONG_ARGUMENTS && same(&r, &given));
    }
    a.present = 3;
    r = given;
    CHECK(frame(some(S, sizeof S), &r, LONG, a, &seq, LONG) == MUBANLIG_WRONG_ARGUMENTS && same(&r, &given));
    a = A;
    a.frame_type = 4;
    r = given;
    CHECK(frame(some(S, sizeof S), &r, LONG, a, &seq, LONG) == MUBANLIG_WRONG_ARGUMENTS && same(&r, &given));

    /* Rectangles of too many columns or rows, of starts that fall, of no such code, in no such frame. */
    r = seq;
    CHECK(rectangles(&r, LONG, 0, 64, 64) == MUBANLIG_ACCEPTED);
    for (i = 0; i < 9; i++) {
        struct record bad = seq;
        uint8_t sb128 = 0;
        int32_t w = 64, h = 64;
        if (i == 0) {
            bad.info[MUBANLIG_INFO_COLS] = 65;
        } else if (i == 1) {
            bad.info[MUBANLIG_INFO_ROWS] = 65;
        } else if (i == 2) {
            bad.rows[0] = 1;
        } else if (i == 3) {
            bad.info[MUBANLIG_INFO_COLS] = 0;
        } else if (i == 4) {
            sb128 = 3;
        } else if (i == 5) {
            w = 65537;
        } else if (i == 6) {
            h = 65537;
        } else if (i == 7) {
            w = 0;
        } else {
            h = -1;
        }
        r = bad;
        CHECK(rectangles(&r, LONG, sb128, w, h) == MUBANLIG_WRONG_ARGUMENTS && same(&r, &bad));
    }
}

/* Each buffer one element short, and of no length: 5, and nothing changes, the position neither. */
static void short_buffers(void)
{
    static const uint8_t S[] = { 0xFF, 0xFF };
    static const struct frame_args A = { MUBANLIG_FRAME_KEY, 64, 64, 0, 64, 64, 0, 0, MUBANLIG_OFF };
    static const struct limit NOTHING = { 0, 0 };
    struct record given = filled(1), r;
    size_t which, i;
    /* Past the end, so that a position stored would show. */
    given.position = 1000;
    given.error = 9;
    for (i = 0; i < 4; i++) {
        static const size_t SHORT[] = { 0, 1, MUBANLIG_GRAIN_NUMBERS - 1 };
        for (which = 0; which < sizeof SHORT / sizeof SHORT[0]; which++) {
            struct lengths n = LONG;
            n.fgd = SHORT[which];
            r = given;
            CHECK(film_grain(some(S, sizeof S), &r, n, (uint8_t)(2 * i)) == MUBANLIG_SHORT_BUFFER && same(&r, &given));
        }
    }
    for (which = 0; which < 12; which++) {
        struct lengths n = LONG;
        size_t *length = &n.rows;
        switch (which / 2) {
        case 0: length = &n.delta_q; break;
        case 1: length = &n.masks; break;
        case 2: length = &n.hdr; break;
        case 3: length = &n.info; break;
        case 4: length = &n.cols; break;
        default: break;
        }
        *length = which % 2 ? 0 : *length - 1;
        if (which < 4) {
            r = given;
            CHECK(seg_info(some(S, sizeof S), &r, n, 0) == MUBANLIG_SHORT_BUFFER && same(&r, &given));
            continue;
        }
        r = given;
        CHECK(header(some(S, sizeof S), &r, n, 0) == MUBANLIG_SHORT_BUFFER && same(&r, &given));
        if (which < 6) {
            continue;
        }
        for (i = 0; i < 2; i++) {
            const struct limit *limit = i == 0 ? NULL : &NOTHING;
            r = given;
            CHECK(layout_in(some(S, sizeof S), &r, n, SMALL, limit) == MUBANLIG_SHORT_BUFFER && same(&r, &given));
            r = given;
            CHECK(frame_in(some(S, sizeof S), &r, n, A, &given, LONG, limit) == MUBANLIG_SHORT_BUFFER && same(&r, &given));
            r = given;
            CHECK(frame_in(some(S, sizeof S), &r, LONG, A, &given, n, limit) == MUBANLIG_SHORT_BUFFER && same(&r, &given));
        }
        r = given;
        CHECK(rectangles(&r, n, 0, 64, 64) == MUBANLIG_SHORT_BUFFER && same(&r, &given));
        r = given;
        CHECK(refused_writing(&r, n, SMALL, MUBANLIG_SHORT_BUFFER));
    }
}

/* A position past the end counts as the end, and comes back as the end. */
static void past_the_end(void)
{
    static const uint8_t S[] = { 0xFF, 0xFF };
    static const size_t POSITIONS[] = { 16, 17, 1000, (size_t)1 << 63, (size_t)-1 };
    struct record r;
    size_t i;
    int which;
    for (i = 0; i < sizeof POSITIONS / sizeof POSITIONS[0]; i++) {
        for (which = 0; which < READINGS; which++) {
            size_t position = POSITIONS[i];
            uint8_t error = 0;
            reading(which, some(S, sizeof S), &position, &error, 5, 7, 2);
            CHECK(position == 16 && error == 1);
        }
        CHECK(mubanlig_byte_pos(S, sizeof S, POSITIONS[i]) == 2);
        CHECK(mubanlig_remaining_bytes(S, sizeof S, POSITIONS[i]) == 0);
        r = filled(0);
        r.position = POSITIONS[i];
        mubanlig_bytealign(S, sizeof S, &r.position);
        CHECK(r.position == 16);
        r.position = POSITIONS[i];
        CHECK(layout(some(S, sizeof S), &r, LONG, SMALL) == MUBANLIG_ACCEPTED && r.position == 16 && r.error == 1);
        r.position = POSITIONS[i];
        r.error = 0;
        CHECK(layout_in(some(S, sizeof S), &r, LONG, sized(4096, 64), &PANEL) == MUBANLIG_TOO_MANY_TILES && r.position == 16 && r.error == 1);
        r.position = POSITIONS[i];
        CHECK(header(some(S, sizeof S), &r, LONG, 0) == MUBANLIG_INVALID_SEQUENCE_HEADER && r.position == 16);
        r.position = POSITIONS[i];
        CHECK(seg_info(some(S, sizeof S), &r, LONG, 0) == MUBANLIG_ACCEPTED && r.position == 16);
        r.position = POSITIONS[i];
        r.error = 0;
        CHECK(film_grain(some(S, sizeof S), &r, LONG, 4) == MUBANLIG_WRONG_ARGUMENTS && r.position == 16 && r.error == 0);
        r.position = POSITIONS[i];
        CHECK(film_grain(some(S, sizeof S), &r, LONG, 0) == MUBANLIG_INVALID_FILM_GRAIN_DATA && r.position == 16 && r.error == 1);
    }
}

/* ---- Random bytes ---- */

static uint64_t state = 1;

/* A number below n. */
static uint32_t below(uint32_t n)
{
    state = state * 6364136223846793005u + 1442695040888963407u;
    return (uint32_t)(state >> 33) % n;
}

static uint32_t any_argument(void)
{
    static const uint32_t FIRST[] = { 0, 1, 2, 7, 31, 32, 33, 64, 65536, 1u << 30, 0x7FFFFFFF, 0x80000000u, 0xFFFFFFFFu };
    return FIRST[below(sizeof FIRST / sizeof FIRST[0])] + below(3) - 1;
}

static void fill_random(void *to, size_t size)
{
    uint8_t *bytes = (uint8_t *)to;
    size_t i;
    for (i = 0; i < size; i++) {
        bytes[i] = (uint8_t)below(256);
    }
}

/* What holds of a layout that was accepted. */
static void check_layout(const struct record *r, uint32_t sbw, uint32_t sbh)
{
    uint8_t cols = r->info[MUBANLIG_INFO_COLS], rows = r->info[MUBANLIG_INFO_ROWS];
    size_t i;
    int rising = 1;
    CHECK(r->info[MUBANLIG_INFO_UNIFORM] <= 1);
    CHECK(1 <= cols && cols <= 64 && 1 <= rows && rows <= 64);
    if (cols > 64 || rows > 64) {
        return;
    }
    for (i = 0; i < cols; i++) {
        rising &= r->cols[i] < r->cols[i + 1];
    }
    for (i = 0; i < rows; i++) {
        rising &= r->rows[i] < r->rows[i + 1];
    }
    CHECK(rising && r->cols[0] == 0 && r->rows[0] == 0);
    CHECK(r->cols[cols] == sbw && r->rows[rows] == sbh && cleared(r));
}

/* Are all but the place and the three buffers of a layout the same, and these too if the call was refused? */
static int keeps(const struct record *after, const struct record *before, uint32_t answer)
{
    struct record r = *after;
    if (answer == MUBANLIG_ACCEPTED) {
        memcpy(r.info, before->info, sizeof r.info);
        memcpy(r.cols, before->cols, sizeof r.cols);
        memcpy(r.rows, before->rows, sizeof r.rows);
        r.sb128 = before->sb128;
    }
    return keeps_all(&r, before);
}

/* What holds of film grain parameters that were accepted: no long list, no position that falls, and zeros behind the last point. */
static void check_grain(const struct record *r)
{
    int plane, i, holds = 1;
    for (plane = 0; plane < 3; plane++) {
        const int16_t *point = r->fgd + MUBANLIG_FGD_POINTS + 28 * plane;
        int count = r->fgd[MUBANLIG_FGD_NUM_POINTS + plane];
        holds &= 0 <= count && count <= 14;
        for (i = 0; i < 14; i++, point += 2) {
            holds &= 0 <= point[0] && point[0] <= 255 && 0 <= point[1] && point[1] <= 255;
            holds &= i == 0 || i >= count || point[-2] <= point[0];
            holds &= i < count || (point[0] == 0 && point[1] == 0);
        }
    }
    CHECK(holds && r->error == 0);
    CHECK(r->fgd[MUBANLIG_FGD_MC_IDENTITY] <= r->fgd[MUBANLIG_FGD_CLIP_TO_RESTRICTED_RANGE]);
}

/* Random bytes, any layout, and a buffer that may be too short. */
static void random_film_grain(struct bytes b, const struct record *given)
{
    int16_t zeros[MUBANLIG_GRAIN_NUMBERS];
    struct record r = *given;
    struct lengths n = LONG;
    uint8_t pixel_layout = (uint8_t)below(5);
    uint32_t answer;
    memset(zeros, 0, sizeof zeros);
    n.fgd = GRAIN - below(4);
    answer = film_grain(b, &r, n, pixel_layout);
    if (n.fgd < MUBANLIG_GRAIN_NUMBERS) {
        CHECK(answer == MUBANLIG_SHORT_BUFFER && same(&r, given));
        return;
    }
    CHECK(r.position <= 8 * b.len && (given->error == 0 ? r.error <= 1 : r.error == given->error));
    if (pixel_layout == 4) {
        CHECK(answer == MUBANLIG_WRONG_ARGUMENTS && keeps_all(&r, given));
    } else if (answer == MUBANLIG_ACCEPTED) {
        check_grain(&r);
        CHECK(left_grain(&r, given, r.fgd));
    } else {
        CHECK(answer == MUBANLIG_INVALID_FILM_GRAIN_DATA && left_grain(&r, given, zeros));
    }
}

/* Any record, and one that was read from the first bit on without error: the bits that it used are written. */
static void random_writing(struct bytes b, const struct record *given, struct layout_args a)
{
    struct record fresh = filled(0), back = filled(0), r = *given;
    struct lengths n = LONG;
    uint32_t answer = write_layout(&r, n, a);
    size_t bytes, i;
    CHECK(answer == MUBANLIG_NO_SUCH_LAYOUT || answer == MUBANLIG_WRONG_ARGUMENTS);
    r.bits = given->bits;
    CHECK(same(&r, given));
    if (layout(b, &fresh, LONG, a) != MUBANLIG_ACCEPTED || fresh.error != 0) {
        return;
    }
    bytes = (fresh.position + 7) / 8;
    r = fresh;
    memcpy(r.written, given->written, sizeof r.written);
    n.written = bytes - 1;
    CHECK(refused_writing(&r, n, a, MUBANLIG_SHORT_BUFFER));
    n.written = bytes + below(3);
    CHECK(write_layout(&r, n, a) == MUBANLIG_ACCEPTED && r.bits == fresh.position);
    for (i = 0; i < bytes; i++) {
        uint8_t padding = (uint8_t)(i + 1 < bytes ? 0 : (1u << (8 * bytes - r.bits)) - 1);
        CHECK(r.written[i] == (b.s[i] & (uint8_t)~padding));
    }
    CHECK(memcmp(r.written + bytes, given->written + bytes, sizeof r.written - bytes) == 0);
    CHECK(layout(some(r.written, n.written), &back, LONG, a) == MUBANLIG_ACCEPTED && back.position == r.bits && back.error == 0);
    CHECK(memcmp(back.info, fresh.info, sizeof back.info) == 0 && memcmp(back.cols, fresh.cols, sizeof back.cols) == 0);
    CHECK(memcmp(back.rows, fresh.rows, sizeof back.rows) == 0);
}

/* A limit beside the counts that were read, the panel's, or any. */
static struct limit any_limit(const struct record *on_wall)
{
    struct limit limit = PANEL;
    if (below(3) != 0) {
        limit.cols = (uint8_t)(on_wall->info[MUBANLIG_INFO_COLS] + below(3) - 1);
        limit.rows = (uint8_t)(on_wall->info[MUBANLIG_INFO_ROWS] + below(3) - 1);
    } else if (below(2) != 0) {
        limit.cols = (uint8_t)below(256);
        limit.rows = (uint8_t)below(256);
    }
    return limit;
}

static void random_turn(void)
{
    uint8_t data[40];
    struct record given, seq, r, on_wall;
    struct layout_args a;
    struct frame_args f;
    struct limit limit;
    size_t len = below(sizeof data + 1), end;
    uint32_t answer, mark;
    struct bytes b;
    int which = (int)below(READINGS);
    fill_random(data, sizeof data);
    b = len == 0 ? none() : some(data, len);
    end = 8 * len;
    fill_random(&given, sizeof given);
    given.position = below(8) == 0 ? given.position : below((uint32_t)end + 20);
    given.error = below(2) ? 0 : given.error;

    r = given;
    reading(which, b, &r.position, &r.error, any_argument(), any_argument(), any_argument());
    CHECK(r.position <= end && (given.error == 0 ? r.error <= 1 : r.error == given.error));
    CHECK(given.position > end || r.position >= given.position);
    CHECK(mubanlig_byte_pos(b.s, b.len, r.position) + mubanlig_remaining_bytes(b.s, b.len, r.position) == len);
    mubanlig_bytealign(b.s, b.len, &r.position);
    CHECK(r.position % 8 == 0 && r.position <= end);

    r = given;
    CHECK(seg_info(b, &r, LONG, (uint8_t)below(3)) == MUBANLIG_ACCEPTED && r.position <= end);

    a.sb128 = (uint8_t)below(4);
    a.seq_sb128 = (uint8_t)(below(4) ? a.sb128 : below(4));
    a.sbmul = a.sb128 == a.seq_sb128 ? 1 : 2;
    a.w = (int32_t)(below(4) ? 1 + below(65536) : any_argument());
    a.h = (int32_t)(below(4) ? 1 + below(65536) : any_argument());
    a.level = (uint8_t)below(33);
    a.tier = (uint8_t)below(2);
    r = given;
    answer = layout(b, &r, LONG, a);
    CHECK(answer == MUBANLIG_ACCEPTED || answer == MUBANLIG_INVALID_TILE_INFO || answer == MUBANLIG_WRONG_ARGUMENTS);
    CHECK(keeps(&r, &given, answer) && r.position <= end);
    if (answer == MUBANLIG_ACCEPTED) {
        mark = (64u << a.sb128) - 1;
        check_layout(&r, ((uint32_t)a.w + mark) >> (6 + a.sb128), ((uint32_t)a.h + mark) >> (6 + a.sb128));
        answer = rectangles(&r, LONG, a.sb128, a.w, a.h);
        CHECK(answer == MUBANLIG_ACCEPTED || answer == MUBANLIG_SHORT_BUFFER);
        if (answer == MUBANLIG_ACCEPTED) {
            CHECK(check_rectangles(&r, a.sb128, a.w, a.h) == (uint64_t)a.w * (uint64_t)a.h);
        }
    }
    on_wall = given;
    answer = layout(b, &on_wall, LONG, a);
    limit = any_limit(&on_wall);
    r = given;
    CHECK(limited(&given, &on_wall, answer, &r, layout_in(b, &r, LONG, a, &limit), limit));
    random_writing(b, &given, a);

    r = given;
    a.sb128 = (uint8_t)below(3);
    answer = rectangles(&r, LONG, a.sb128, a.w, a.h);
    CHECK(answer <= 5 && keeps(&r, &given, MUBANLIG_ACCEPTED) == (answer != MUBANLIG_ACCEPTED));
    if (answer == MUBANLIG_ACCEPTED) {
        check_rectangles(&r, a.sb128, a.w, a.h);
    }

    r = given;
    answer = header(b, &r, LONG, (uint8_t)below(2));
    CHECK(answer <= MUBANLIG_INVALID_TRAILING_BITS && r.position <= end);

    /* A sequence's record that may be usable or not. */
    seq = given;
    if (below(2)) {
        struct record fresh = filled(0);
        a.sbmul = 1;
        a.sb128 = a.seq_sb128 = (uint8_t)below(3);
        a.w = 1 + (int32_t)below(8192);
        a.h = 1 + (int32_t)below(8192);
        a.level = (uint8_t)below(32);
        layout(b, &fresh, LONG, a);
        /* With old numbers behind its closing starts. */
        memcpy(seq.info, fresh.info, sizeof seq.info);
        memcpy(seq.cols, fresh.cols, (seq.info[MUBANLIG_INFO_COLS] + (size_t)1) * sizeof *seq.cols);
        memcpy(seq.rows, fresh.rows, (seq.info[MUBANLIG_INFO_ROWS] + (size_t)1) * sizeof *seq.rows);
    }
    f.frame_type = (uint8_t)below(5);
    f.width = 1 + (int32_t)below(8192);
    f.height = 1 + (int32_t)below(8192);
    f.seq_sb128 = a.seq_sb128;
    f.max_width = 8192;
    f.max_height = 8192;
    f.level = a.level;
    f.tier = a.tier;
    f.present = (uint8_t)below(4);
    r = given;
    answer = frame(b, &r, LONG, f, &seq, LONG);
    CHECK(answer == MUBANLIG_ACCEPTED || answer == MUBANLIG_INVALID_TILE_INFO || answer == MUBANLIG_WRONG_ARGUMENTS);
    CHECK(keeps(&r, &given, answer) && r.position <= end);
    CHECK(answer != MUBANLIG_ACCEPTED || (r.info[MUBANLIG_INFO_UNIFORM] <= 1 && r.sb128 <= 2 && cleared(&r)));
    on_wall = r;
    limit = any_limit(&on_wall);
    r = given;
    CHECK(limited(&given, &on_wall, answer, &r, frame_in(b, &r, LONG, f, &seq, LONG, &limit), limit));

    random_film_grain(b, &given);
}

int main(void)
{
    int turn;
    interfaces();
    readings_of_known_bytes();
    no_data();
    a_layout_and_its_rectangles();
    a_header();
    a_frame();
    an_old_layout();
    within_limits();
    a_film_grain();
    refused_film_grain();
    a_written_layout();
    refused_layouts();
    refusals();
    short_buffers();
    past_the_end();
    for (turn = 0; turn < 3000; turn++) {
        random_turn();
    }
    printf("%lu claims, %lu failed\n", checks, failures);
    return failures != 0;
}
