/* dav1d's block functions by the calls of libtilgwaren.a (bindings/c/tilgwaren.h).
 *
 * build.py puts this file into a copy of dav1d's src/. It is compiled once for samples of 8 bits and once for samples of
 * 16 bits. Each function has the type of an entry of dav1d's tables (src/mc.h, src/ipred.h, src/itx.h). The comment
 * before it names the entries that it fills, and what it copies or converts.
 *
 *   LIBRARY_CALLS=FILE   appends a line for each call: its name, 8 or 16 (bits of a sample), the block's width and height,
 *                        and three numbers that say more about the call (see count_as). Names that begin with own_ are
 *                        functions that dav1d keeps
 *   LIBRARY_REGIONS=1    makes each call on a copy of the block, so that no call gets samples beside its block */
#include "config.h"

#include <fcntl.h>
#include <stdio.h>
#include <stdlib.h>
#include <string.h>

#include "common/attributes.h"
#include "common/intops.h"
#include "src/cpu.h"
#include "src/library.h"
#include "src/tables.h"

#include "tilgwaren_codec.h"
#include "tilgwaren_regions.h"

#if BITDEPTH == 8
#define CALL(name) tilg_##name##_8
#define MOTION_CALL(name) tilg_##name##_8tap_8
#define DEPTH 8
#define DEPTH_ARG
#define LUMA_CALL tilg_cfl_ac_8
#define REGION tilg_region_8
#define READ_REGION tilg_read_region_8
#else
#define CALL(name) tilg_##name##_16
#define MOTION_CALL(name) tilg_##name##_tested_16
#define DEPTH ((uint8_t) bitdepth_from_max(bitdepth_max))
#define DEPTH_ARG , DEPTH
#define LUMA_CALL tilg_cfl_ac_tested_16
#define REGION tilg_region_16
#define READ_REGION tilg_read_region_16
#endif

/* The buffers that calls work in: dav1d's functions get none, so each thread has its own. */
#define BLOCK_LEN (128 * 128)
#define WINDOW_LEN (135 * 135)
static _Thread_local tilg_context ALIGN(context, 64);
static _Thread_local pixel ALIGN(block_copy[BLOCK_LEN], 64);
static _Thread_local pixel ALIGN(window[WINDOW_LEN], 64);

/* ---- settings, counts and statuses */

static int calls_file = -1;
static int by_regions;
static unsigned rejected[64];

/* Returns whether dav1d's mask of processor features has the library, after reading the settings. */
static COLD int is_chosen(void) {
    const char *const path = getenv("LIBRARY_CALLS");
    if (path && calls_file < 0) calls_file = open(path, O_WRONLY | O_CREAT | O_APPEND, 0644);
    by_regions = getenv("LIBRARY_REGIONS") != NULL;
    return !!(dav1d_get_cpu_flags() & DAV1D_X86_CPU_FLAG_LIBRARY);
}

/* Writes the line of a call. The three numbers are, by name:
 *   put, prep  1: a fraction along rows, 2: one down columns, 3: both; the filter along rows; the filter down columns
 *   intra      the mode; its steps of 3 degrees; 1: a left edge, 2: an edge above, 4: the edge filter, 8: a smooth neighbour
 *   cfl_ac     1: half of luma's columns, 2: of its rows, 3: of both; units of 4 columns without luma; units of 4 rows
 *   cfl_pred   0; 0; 1: a left edge, 2: an edge above, 3: both
 *   itx        the type; the end of block; 0
 * and 0 for all others. */
static NOINLINE void add_call(const char *const name, const int w, const int h, const int a, const int b, const int c) {
    dprintf(calls_file, "%s %d %d %d %d %d %d\n", name, BITDEPTH, w, h, a, b, c);
}

static inline void count_as(const char *const name, const int w, const int h, const int a, const int b, const int c) {
    if (calls_file >= 0) add_call(name, w, h, a, b, c);
}

static inline void count(const char *const name, const int w, const int h) {
    count_as(name, w, h, 0, 0, 0);
}

__attribute__((destructor)) static void report(void) {
    for (int status = 1; status < 64; status++)
        if (rejected[status])
            fprintf(stderr, "library: %u calls rejected with status %d\n", rejected[status], status);
}

/* ---- rows of a plane */

/* The rows that a call writes. */
typedef struct {
    pixel *at;
    size_t len, stride;
} rows;

/* Whether a call gets a copy: if rows go upwards there is no slice, and other threads may write beside the block. */
static inline int needs_copy(const ptrdiff_t stride) {
    return by_regions || stride < 0;
}

/* The block's rows in the plane, with all samples between them and as far as the stride after the last; or a copy. */
static inline rows rows_of(pixel *const dst, const ptrdiff_t stride, const int w, const int h) {
    if (needs_copy(stride)) return (rows) { block_copy, BLOCK_LEN, (size_t) w };
    return (rows) { dst, (size_t) (stride * h), (size_t) stride };
}

/* After a call: counts a status that isn't TILG_DONE. */
static inline void check(const uint32_t status) {
    if (status) rejected[umin(status, 63)]++;
}

/* The same, and stores a copy in the plane. */
static inline void finish(const uint32_t status, pixel *const dst, const ptrdiff_t stride, const int w, const int h) {
    const REGION region = { dst, stride, (size_t) w, (size_t) h };
    check(status);
    if (!status && needs_copy(stride))
        check(CALL(store_region)(&region, 0, 0, (size_t) w, (size_t) h, block_copy, BLOCK_LEN));
}

static inline void load(pixel *const to, const size_t len, const pixel *const from, const ptrdiff_t stride, const int w,
                        const int h)
{
    const READ_REGION region = { from, stride, (size_t) w, (size_t) h };
    check(CALL(load_region)(to, len, &region, 0, 0, (size_t) w, (size_t) h));
}

/* ---- motion compensation: Dav1dMCDSPContext */

/* By the names of dav1d's filters: the filter along rows and the filter down columns. */
#define FILTERS(X) \
    X(8TAP_REGULAR, 0, 0) X(8TAP_REGULAR_SMOOTH, 0, 1) X(8TAP_REGULAR_SHARP, 0, TILG_FILTER_SHARP) \
    X(8TAP_SHARP_REGULAR, TILG_FILTER_SHARP, 0) X(8TAP_SHARP_SMOOTH, TILG_FILTER_SHARP, 1) X(8TAP_SHARP, TILG_FILTER_SHARP, TILG_FILTER_SHARP) \
    X(8TAP_SMOOTH_REGULAR, 1, 0) X(8TAP_SMOOTH, 1, 1) X(8TAP_SMOOTH_SHARP, 1, TILG_FILTER_SHARP) X(BILINEAR, 3, 3)

/* A reference: the samples that a call reads, and where the block begins in them. */
typedef struct {
    const pixel *at;
    size_t len, stride, x, y;
} reference;

/* The reference in its plane: along a dimension with a fraction, dav1d has 3 samples before the block and 4 after it. If rows go
 * upwards there is no slice, and intra block copy, whose filter is bilinear, reads the plane that it writes: both get a copy. */
static inline reference reference_of(const pixel *const src, const ptrdiff_t stride, const int w, const int h, const int mx,
                                     const int my, const int filter)
{
    const int x = mx ? 3 : 0, y = my ? 3 : 0, columns = w + (mx ? 7 : 0), lines = h + (my ? 7 : 0);
    const pixel *const first = src - y * stride - x;
    if (stride > 0 && filter != TILG_FILTER_BILINEAR)
        return (reference) { first, (size_t) (stride * (lines - 1) + columns), (size_t) stride, (size_t) x, (size_t) y };
    load(window, WINDOW_LEN, first, stride, columns, lines);
    return (reference) { window, (size_t) (columns * lines), (size_t) columns, (size_t) x, (size_t) y };
}

/* mc[]: copies a reference of intra block copy. */
static ALWAYS_INLINE void put(pixel *const dst, const ptrdiff_t dst_stride, const pixel *const src,
                              const ptrdiff_t src_stride, const int w, const int h, const int mx, const int my,
                              const uint8_t fx, const uint8_t fy HIGHBD_DECL_SUFFIX)
{
    const reference from = reference_of(src, PXSTRIDE(src_stride), w, h, mx, my, fx);
    const rows to = rows_of(dst, PXSTRIDE(dst_stride), w, h);
    const tilg_motion_block b = { (size_t) w, (size_t) h, (uint8_t) mx, (uint8_t) my, fx, fy };
    count_as("put", w, h, (mx ? 1 : 0) | (my ? 2 : 0), fx, fy);
    finish(MOTION_CALL(put)(to.at, to.len, to.stride, 0, 0, from.at, from.len, from.stride, from.x, from.y, &b DEPTH_ARG), dst,
           PXSTRIDE(dst_stride), w, h);
}

/* mct[]: copies the same. */
static ALWAYS_INLINE void prep(int16_t *const tmp, const pixel *const src, const ptrdiff_t src_stride, const int w,
                               const int h, const int mx, const int my, const uint8_t fx, const uint8_t fy
                               HIGHBD_DECL_SUFFIX)
{
    const reference from = reference_of(src, PXSTRIDE(src_stride), w, h, mx, my, fx);
    const tilg_motion_block b = { (size_t) w, (size_t) h, (uint8_t) mx, (uint8_t) my, fx, fy };
    count_as("prep", w, h, (mx ? 1 : 0) | (my ? 2 : 0), fx, fy);
    check(MOTION_CALL(prep)(tmp, (size_t) (w * h), from.at, from.len, from.stride, from.x, from.y, &b DEPTH_ARG));
}

#define MOTION(name, fx, fy) \
static decl_mc_fn(library_put_##name) { \
    put(dst, dst_stride, src, src_stride, w, h, mx, my, fx, fy HIGHBD_TAIL_SUFFIX); \
} \
static decl_mct_fn(library_prep_##name) { \
    prep(tmp, src, src_stride, w, h, mx, my, fx, fy HIGHBD_TAIL_SUFFIX); \
}
FILTERS(MOTION)

/* avg: as it is. */
static decl_avg_fn(library_avg) {
    const rows to = rows_of(dst, PXSTRIDE(dst_stride), w, h);
    const size_t len = (size_t) (w * h);
    count("avg", w, h);
    finish(CALL(mc_avg)(to.at, to.len, to.stride, 0, 0, (size_t) w, (size_t) h, tmp1, len, tmp2, len DEPTH_ARG), dst,
           PXSTRIDE(dst_stride), w, h);
}

/* ---- intra prediction: Dav1dIntraPredDSPContext */

static inline tilg_intra_block intra_block(const int w, const int h, const int has_left, const int has_above
                                          HIGHBD_DECL_SUFFIX)
{
    return (tilg_intra_block) { .tx_size = tilg_tx_size_of((size_t) w, (size_t) h), .bit_depth = DEPTH,
                               .has_left = (uint8_t) has_left, .has_above = (uint8_t) has_above,
                               .visible_columns = 65536, .visible_rows = 65536 };
}

static void predict(pixel *const dst, const ptrdiff_t dst_stride, const tilg_intra_block *const b,
                    const pixel *const left, const int left_len, const pixel corner, const pixel *const above,
                    const int above_len, const int w, const int h)
{
    const rows to = rows_of(dst, PXSTRIDE(dst_stride), w, h);
    count_as("intra", w, h, b->mode, b->angle_step,
             b->has_left | b->has_above << 1 | b->edge_filter << 2 | b->smooth_neighbour << 3);
    finish(CALL(predict_intra)(to.at, to.len, to.stride, 0, 0, b, left, (size_t) left_len, corner, above,
                               (size_t) above_len), dst, PXSTRIDE(dst_stride), w, h);
}

/* intra_pred[] of the modes that don't turn: as they are, because dav1d's edge has the order of the library's. */
#define INTRA(name, number, has_left, has_above) \
static decl_angular_ipred_fn(library_##name) { \
    tilg_intra_block b = intra_block(width, height, has_left, has_above HIGHBD_TAIL_SUFFIX); \
    b.mode = number; \
    predict(dst, stride, &b, topleft - height, height, *topleft, topleft + 1, width, width, height); \
}
INTRA(dc, 0, 1, 1)
INTRA(dc_128, 0, 0, 0)
INTRA(dc_top, 0, 0, 1)
INTRA(dc_left, 0, 1, 0)
INTRA(vertical, 1, 1, 1)
INTRA(horizontal, 2, 1, 1)
INTRA(smooth, 9, 1, 1)
INTRA(smooth_v, 10, 1, 1)
INTRA(smooth_h, 11, 1, 1)
INTRA(paeth, 12, 1, 1)

/* A block of a mode that turns, by dav1d's angle, of which bit 9 is the smooth neighbour and bit 10 the edge filter. The library
 * rejects an angle that no mode turns to. */
static inline tilg_intra_block turned(const int w, const int h, const int angle HIGHBD_DECL_SUFFIX) {
    const tilg_turned_mode mode = tilg_mode_of_angle(angle & 511);
    tilg_intra_block b = intra_block(w, h, 1, 1 HIGHBD_TAIL_SUFFIX);
    b.smooth_neighbour = angle >> 9 & 1;
    b.edge_filter = angle >> 10 & 1;
    b.mode = mode.mode;
    b.angle_step = mode.angle_step;
    return b;
}

/* intra_pred[Z1_PRED]: for a tall block repeats the last sample above, because dav1d's edge ends at twice the width. */
static decl_angular_ipred_fn(library_z1) {
    const tilg_intra_block b = turned(width, height, angle HIGHBD_TAIL_SUFFIX);
    const pixel *above = topleft + 1;
    pixel longer[128];
    if (height > width) {
        pixel_copy(longer, above, 2 * width);
        pixel_set(longer + 2 * width, above[2 * width - 1], height - width);
        above = longer;
    }
    predict(dst, stride, &b, topleft, 0, *topleft, above, width + height, width, height);
}

/* intra_pred[Z2_PRED]: as it is. */
static decl_angular_ipred_fn(library_z2) {
    tilg_intra_block b = turned(width, height, angle HIGHBD_TAIL_SUFFIX);
    b.visible_columns = (size_t) max_width;
    b.visible_rows = (size_t) max_height;
    predict(dst, stride, &b, topleft - height, height, *topleft, topleft + 1, width, width, height);
}

/* intra_pred[Z3_PRED]: for a wide block repeats the last sample on the left, because dav1d's edge ends at twice the height. */
static decl_angular_ipred_fn(library_z3) {
    const tilg_intra_block b = turned(width, height, angle HIGHBD_TAIL_SUFFIX);
    const pixel *left = topleft - (width + height);
    pixel longer[128];
    if (width > height) {
        pixel_set(longer, topleft[-2 * height], width - height);
        pixel_copy(longer + width - height, topleft - 2 * height, 2 * height);
        left = longer;
    }
    predict(dst, stride, &b, left, width + height, *topleft, topleft + 1, 0, width, height);
}

/* cfl_ac[]: as it is. dav1d's samples are within their depth, so they are below 4096. */
static ALWAYS_INLINE void cfl_ac(int16_t *const ac, const pixel *luma, const ptrdiff_t luma_stride, const int w_pad,
                                 const int h_pad, const int w, const int h, const int xdec, const int ydec)
{
    const tilg_cfl_block b = { tilg_block_size_of((size_t) w, (size_t) h), (uint8_t) xdec, (uint8_t) ydec, (size_t) w_pad,
                               (size_t) h_pad };
    const int columns = imin(w << xdec, imax((w - 4 * w_pad) << xdec, 8));
    const int luma_rows = imin(h << ydec, imax((h - 4 * h_pad) << ydec, 8));
    ptrdiff_t stride = PXSTRIDE(luma_stride);
    if (needs_copy(stride)) {
        load(window, WINDOW_LEN, luma, stride, columns, luma_rows);
        luma = window;
        stride = columns;
    }
    count_as("cfl_ac", w, h, xdec | ydec << 1, w_pad, h_pad);
    check(LUMA_CALL(ac, (size_t) (w * h), luma, (size_t) (stride * luma_rows), (size_t) stride, 0, 0, &b));
}

#define CFL_AC(layout, xdec, ydec) \
static decl_cfl_ac_fn(library_cfl_ac_##layout) { cfl_ac(ac, y, stride, w_pad, h_pad, cw, ch, xdec, ydec); }
CFL_AC(420, 1, 1)
CFL_AC(422, 1, 0)
CFL_AC(444, 0, 0)

/* cfl_pred[]: as it is. */
#define CFL(name, has_left, has_above) \
static decl_cfl_pred_fn(library_cfl_##name) { \
    const tilg_intra_block b = intra_block(width, height, has_left, has_above HIGHBD_TAIL_SUFFIX); \
    const rows to = rows_of(dst, PXSTRIDE(stride), width, height); \
    count_as("cfl_pred", width, height, 0, 0, has_left | has_above << 1); \
    finish(CALL(predict_cfl)(to.at, to.len, to.stride, 0, 0, &b, topleft - height, (size_t) height, topleft + 1, \
                             (size_t) width, ac, (size_t) (width * height), (int16_t) alpha), \
           dst, PXSTRIDE(stride), width, height); \
}
CFL(dc, 1, 1)
CFL(dc_128, 0, 0)
CFL(dc_top, 0, 1)
CFL(dc_left, 1, 0)

/* ---- inverse transforms: Dav1dInvTxfmDSPContext */

/* itxfm_add[]: clears the coefficients after the call. dav1d counts the end of block from 0. */
static NOINLINE void itx(pixel *const dst, const ptrdiff_t dst_stride, coef *const coeff, const int eob, const int tx,
                         const int type HIGHBD_DECL_SUFFIX)
{
    const int w = dav1d_txfm_dimensions[tx].w * 4, h = dav1d_txfm_dimensions[tx].h * 4;
    const ptrdiff_t stride = PXSTRIDE(dst_stride);
    const rows to = rows_of(dst, stride, w, h);
    const size_t n = tilg_coefficients_len((uint8_t) tx, (uint8_t) type, (size_t) eob + 1);
    if (needs_copy(stride)) load(block_copy, BLOCK_LEN, dst, stride, w, h);
    count_as("itx", w, h, type, eob, 0);
    finish(CALL(inverse_transform_add)(to.at, to.len, to.stride, 0, 0, &context, coeff, n, (uint8_t) tx,
                                       (uint8_t) type DEPTH_ARG), dst, stride, w, h);
    memset(coeff, 0, n * sizeof(*coeff));
}

/* The sizes, each with its types. */
#define TYPES_1(X, tx) X(tx, DCT_DCT)
#define TYPES_2(X, tx) TYPES_1(X, tx) X(tx, IDTX)
#define TYPES_12(X, tx) TYPES_2(X, tx) X(tx, ADST_DCT) X(tx, DCT_ADST) X(tx, ADST_ADST) X(tx, FLIPADST_DCT) \
    X(tx, DCT_FLIPADST) X(tx, FLIPADST_FLIPADST) X(tx, ADST_FLIPADST) X(tx, FLIPADST_ADST) X(tx, V_DCT) X(tx, H_DCT)
#define TYPES_16(X, tx) TYPES_12(X, tx) X(tx, V_ADST) X(tx, H_ADST) X(tx, V_FLIPADST) X(tx, H_FLIPADST)
#define TYPES_17(X, tx) TYPES_16(X, tx) X(tx, WHT_WHT)
#define TRANSFORMS(X) \
    TYPES_17(X, TX_4X4) TYPES_16(X, TX_8X8) TYPES_12(X, TX_16X16) TYPES_2(X, TX_32X32) TYPES_1(X, TX_64X64) \
    TYPES_16(X, RTX_4X8) TYPES_16(X, RTX_8X4) TYPES_16(X, RTX_8X16) TYPES_16(X, RTX_16X8) TYPES_2(X, RTX_16X32) \
    TYPES_2(X, RTX_32X16) TYPES_1(X, RTX_32X64) TYPES_1(X, RTX_64X32) TYPES_16(X, RTX_4X16) TYPES_16(X, RTX_16X4) \
    TYPES_2(X, RTX_8X32) TYPES_2(X, RTX_32X8) TYPES_1(X, RTX_16X64) TYPES_1(X, RTX_64X16)
#define ITX(tx, type) \
static decl_itx_fn(library_itx_##tx##_##type) { itx(dst, dst_stride, coeff, eob, tx, type HIGHBD_TAIL_SUFFIX); }
TRANSFORMS(ITX)

/* ---- what dav1d keeps: counted, then called */

static Dav1dMCDSPContext own_mc;
static Dav1dIntraPredDSPContext own_intra;

static decl_angular_ipred_fn(own_filter_intra) {
    count("own_filter_intra", width, height);
    own_intra.intra_pred[FILTER_PRED](dst, stride, topleft, width, height, angle, max_width, max_height HIGHBD_TAIL_SUFFIX);
}
static decl_pal_pred_fn(own_palette) {
    count("own_palette", w, h);
    own_intra.pal_pred(dst, stride, pal, idx, w, h);
}
static decl_w_avg_fn(own_w_avg) {
    count("own_w_avg", w, h);
    own_mc.w_avg(dst, dst_stride, tmp1, tmp2, w, h, weight HIGHBD_TAIL_SUFFIX);
}
static decl_mask_fn(own_mask) {
    count("own_mask", w, h);
    own_mc.mask(dst, dst_stride, tmp1, tmp2, w, h, mask HIGHBD_TAIL_SUFFIX);
}
#define W_MASK(n) static decl_w_mask_fn(own_w_mask_##n) { \
    count("own_w_mask", w, h); \
    own_mc.w_mask[n](dst, dst_stride, tmp1, tmp2, w, h, mask, sign HIGHBD_TAIL_SUFFIX); \
}
W_MASK(0)
W_MASK(1)
W_MASK(2)
static decl_blend_fn(own_blend) {
    count("own_blend", w, h);
    own_mc.blend(dst, dst_stride, tmp, w, h, mask);
}
static decl_blend_dir_fn(own_blend_v) {
    count("own_blend_v", w, h);
    own_mc.blend_v(dst, dst_stride, tmp, w, h);
}
static decl_blend_dir_fn(own_blend_h) {
    count("own_blend_h", w, h);
    own_mc.blend_h(dst, dst_stride, tmp, w, h);
}
static decl_warp8x8_fn(own_warp8x8) {
    count("own_warp8x8", 8, 8);
    own_mc.warp8x8(dst, dst_stride, src, src_stride, abcd, mx, my HIGHBD_TAIL_SUFFIX);
}
static decl_warp8x8t_fn(own_warp8x8t) {
    count("own_warp8x8t", 8, 8);
    own_mc.warp8x8t(tmp, tmp_stride, src, src_stride, abcd, mx, my HIGHBD_TAIL_SUFFIX);
}
#define SCALED(name, fx, fy) \
static decl_mc_scaled_fn(own_put_scaled_##name) { \
    count("own_put_scaled", w, h); \
    own_mc.mc_scaled[FILTER_2D_##name](dst, dst_stride, src, src_stride, w, h, mx, my, dx, dy HIGHBD_TAIL_SUFFIX); \
} \
static decl_mct_scaled_fn(own_prep_scaled_##name) { \
    count("own_prep_scaled", w, h); \
    own_mc.mct_scaled[FILTER_2D_##name](tmp, src, src_stride, w, h, mx, my, dx, dy HIGHBD_TAIL_SUFFIX); \
}
FILTERS(SCALED)

static COLD void count_own_mc(Dav1dMCDSPContext *const c) {
    own_mc = *c;
#define SET_SCALED(name, fx, fy) \
    c->mc_scaled[FILTER_2D_##name] = own_put_scaled_##name; \
    c->mct_scaled[FILTER_2D_##name] = own_prep_scaled_##name;
    FILTERS(SET_SCALED)
    c->w_avg = own_w_avg;
    c->mask = own_mask;
    c->w_mask[0] = own_w_mask_0;
    c->w_mask[1] = own_w_mask_1;
    c->w_mask[2] = own_w_mask_2;
    c->blend = own_blend;
    c->blend_v = own_blend_v;
    c->blend_h = own_blend_h;
    c->warp8x8 = own_warp8x8;
    c->warp8x8t = own_warp8x8t;
}

/* ---- the tables */

COLD void bitfn(library_mc_init)(Dav1dMCDSPContext *const c) {
    if (!is_chosen()) return;
#define SET_MOTION(name, fx, fy) \
    c->mc[FILTER_2D_##name] = library_put_##name; \
    c->mct[FILTER_2D_##name] = library_prep_##name;
    FILTERS(SET_MOTION)
    c->avg = library_avg;
    if (calls_file >= 0) count_own_mc(c);
}

COLD void bitfn(library_ipred_init)(Dav1dIntraPredDSPContext *const c) {
    if (!is_chosen()) return;
    c->intra_pred[DC_PRED] = library_dc;
    c->intra_pred[DC_128_PRED] = library_dc_128;
    c->intra_pred[TOP_DC_PRED] = library_dc_top;
    c->intra_pred[LEFT_DC_PRED] = library_dc_left;
    c->intra_pred[VERT_PRED] = library_vertical;
    c->intra_pred[HOR_PRED] = library_horizontal;
    c->intra_pred[SMOOTH_PRED] = library_smooth;
    c->intra_pred[SMOOTH_V_PRED] = library_smooth_v;
    c->intra_pred[SMOOTH_H_PRED] = library_smooth_h;
    c->intra_pred[PAETH_PRED] = library_paeth;
    c->intra_pred[Z1_PRED] = library_z1;
    c->intra_pred[Z2_PRED] = library_z2;
    c->intra_pred[Z3_PRED] = library_z3;
    c->cfl_ac[DAV1D_PIXEL_LAYOUT_I420 - 1] = library_cfl_ac_420;
    c->cfl_ac[DAV1D_PIXEL_LAYOUT_I422 - 1] = library_cfl_ac_422;
    c->cfl_ac[DAV1D_PIXEL_LAYOUT_I444 - 1] = library_cfl_ac_444;
    c->cfl_pred[DC_PRED] = library_cfl_dc;
    c->cfl_pred[DC_128_PRED] = library_cfl_dc_128;
    c->cfl_pred[TOP_DC_PRED] = library_cfl_dc_top;
    c->cfl_pred[LEFT_DC_PRED] = library_cfl_dc_left;
    if (calls_file < 0) return;
    own_intra = *c;
    c->intra_pred[FILTER_PRED] = own_filter_intra;
    c->pal_pred = own_palette;
}

COLD void bitfn(library_itx_init)(Dav1dInvTxfmDSPContext *const c) {
    if (!is_chosen()) return;
#define SET_ITX(tx, type) c->itxfm_add[tx][type] = library_itx_##tx##_##type;
    TRANSFORMS(SET_ITX)
}
