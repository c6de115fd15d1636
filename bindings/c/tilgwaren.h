/* AV1 block reconstruction: the calls of libtilgwaren. docs/LIBRARY.md says how to build and link it,
 * docs/PROVED.md what of it is proved.
 *
 *     size_t written;
 *     tilg_refusal refusal;
 *     tilg_status status = tilg_reconstruct_plan(planes, planes_len, &written, &refusal, plan, plan_len);
 *     if (status != TILG_DONE) fprintf(stderr, "%s\n", tilg_status_text(status));
 *
 * Statuses: every call except tilg_version returns one. If it is TILG_DONE, the call has written what its
 * comment says. If it is anything else, the call has changed nothing except where its comment says so, and
 * scratch memory. The call checks all arguments, except samples if its comment says so. Two things no call
 * can check, so the caller must guarantee them:
 *   - Each pointer is valid for the number of elements given by the length next to it, or for one
 *     value. It may be NULL if that length is 0.
 *   - Memory that a call writes (each pointer without `const`) overlaps no other argument. Memory that
 *     a call only reads may overlap other memory that it only reads.
 *
 * Arguments: what a call writes comes first, then scratch memory, then what it reads.
 *
 * Words: `x` and `y` are a column and a row, counted from 0 to the right and down, in samples unless a comment
 * says otherwise. `mv_x` and `mv_y` are a motion vector, in eighths of a luma sample. `stride` is how many
 * samples apart the rows of a buffer are. A flag is 0 or 1. `halved_columns` is 1 if a plane has half of luma's
 * columns (4:2:2 and 4:2:0), `halved_rows` is 1 if it has half of luma's rows (4:2:0); a plane of luma has 0
 * and 0. `bit_depth` is 8, 10 or 12: samples of 8 bits have the depth 8.
 *
 * A rectangle lies in its samples if x + width <= stride and (y + height) * stride <= the number of
 * samples: its last row also has `stride` samples, unless a comment says that it may end with its own. A
 * region (tilgwaren_regions.h) has only its own samples, not those between its rows.
 *
 * Calls keep no state. They may run in several threads at the same time, on memory that the threads
 * don't share. Numbers are in the machine's byte order. Numbers inside a plan, and samples of 16 bits
 * in the planes that a plan gives, are little-endian. */
#ifndef TILGWAREN_H
#define TILGWAREN_H

#if !defined(__linux__) || defined(__ILP32__) || !(defined(__x86_64__) || (defined(__aarch64__) && !defined(__AARCH64EB__)))
#error "the archive behind this header is code for Linux on x86-64 or little-endian ARM64, with pointers of 64 bits"
#endif

#include <stddef.h>
#include <stdint.h>

#ifdef __cplusplus
extern "C" {
#endif

/* ---- versions */

/* The version of this header. */
#define TILG_VERSION_MAJOR 0
#define TILG_VERSION_MINOR 4
#define TILG_VERSION_PATCH 0
#define TILG_VERSION (TILG_VERSION_MAJOR * 65536u + TILG_VERSION_MINOR * 256u + TILG_VERSION_PATCH)

/* The version of the library, in the form of TILG_VERSION. As long as major is 0, the symbol's name has the minor
 * version, and every file that includes this header refers to it: a library of another minor version does not link. */
uint32_t tilg_version_0_4(void);
#define tilg_version tilg_version_0_4
#if defined(__GNUC__)
#define TILG_MUST_USE __attribute__((warn_unused_result))
__attribute__((unused, used)) static uint32_t (*const tilg_needs_version_0_4)(void) = tilg_version_0_4;
#else
#define TILG_MUST_USE
#endif

/* ---- statuses */

/* Each status, with its number and its text. */
#define TILG_STATUSES(X) \
    X(TILG_DONE, 0, "done") \
    X(TILG_OUT_OF_MEMORY, 1, "an allocation failed") \
    X(TILG_ROOM_TOO_SMALL, 2, "the buffer to write is too short") \
    X(TILG_TOO_LONG, 3, "the input is longer than any plan (2^26 bytes)") \
    X(TILG_MALFORMED, 4, "the input is not well-formed") \
    X(TILG_INVALID, 5, "a leaf of the plan is rejected") \
    X(TILG_BAD_SIZE, 6, "a size number that does not exist, or a width or height that no block has") \
    X(TILG_BAD_TYPE, 7, "a transform type that does not exist, or that the size does not allow") \
    X(TILG_BAD_DEPTH, 8, "the bit depth is not 8, 10 or 12") \
    X(TILG_BAD_AREA, 9, "a rectangle does not lie in its buffer") \
    X(TILG_TOO_SHORT, 10, "a list has too few elements") \
    X(TILG_BAD_COEFFICIENT, 11, "a coefficient has more bits than the depth allows") \
    X(TILG_BAD_SAMPLE, 12, "a sample has more bits than the depth") \
    X(TILG_BAD_MODE, 13, "no mode or filter has this number") \
    X(TILG_BAD_ANGLE, 14, "the mode does not have this angle") \
    X(TILG_BAD_FRACTION, 15, "the fraction is not below 16 sixteenths of a sample") \
    X(TILG_BAD_SAMPLING, 16, "chroma cannot be halved like this") \
    X(TILG_BAD_PAD, 17, "the padding covers the whole block") \
    X(TILG_TOO_LONG_PART, 30, "the plan of a part would have more than 2^26 bytes") \
    X(TILG_MALFORMED_PART, 31, "a part is not a well-formed plan, or not a well-formed list of leaves") \
    X(TILG_INVALID_PART, 32, "a leaf of a part is rejected") \
    X(TILG_EMPTY_SLOT, 33, "a part shows again the frame of a slot that is empty") \
    X(TILG_NOT_NOW, 40, "the plan expects another kind of field next") \
    X(TILG_NOT_ADMITTED, 41, "an argument has a value that is not valid here") \
    X(TILG_BAD_STATE, 42, "the builder was not initialised or is corrupt")
#define TILG_AS_NUMBER(name, number, text) name = number,
#define TILG_AS_TEXT(name, number, text) if (status == number) return text;
typedef enum { TILG_STATUSES(TILG_AS_NUMBER) } tilg_status;

/* What a status means. */
static inline const char *tilg_status_text(uint32_t status) {
    TILG_STATUSES(TILG_AS_TEXT)
    return "unknown status";
}

/* Why a leaf is rejected: `kind` of a refusal. */
typedef enum {
    TILG_INVALID_BLOCK_SIZE = 1, /* its chroma would have a size that does not exist */
    TILG_INVALID_TRANSFORM = 2,  /* the transform is longer than the leaf, or its size does not allow its type */
    TILG_INVALID_MODE = 3,       /* a mode, an angle step or an alpha that the leaf cannot have */
    TILG_INVALID_VECTOR = 4,     /* a motion vector out of range */
    TILG_MISSING_REFERENCE = 5,  /* a reference to a slot without planes */
    TILG_INVALID_COEFFICIENT = 6 /* a coefficient out of order, out of its block or out of range */
} tilg_invalid_kind;

/* ---- numbers, which are those of plans and of the AV1 specification. A field of a struct that has one is a uint8_t. */

/* The size of a block: columns x rows. */
typedef enum {
    TILG_BLOCK_4X4 = 0, TILG_BLOCK_4X8, TILG_BLOCK_8X4, TILG_BLOCK_8X8, TILG_BLOCK_8X16, TILG_BLOCK_16X8, TILG_BLOCK_16X16, TILG_BLOCK_16X32,
    TILG_BLOCK_32X16, TILG_BLOCK_32X32, TILG_BLOCK_32X64, TILG_BLOCK_64X32, TILG_BLOCK_64X64, TILG_BLOCK_64X128, TILG_BLOCK_128X64,
    TILG_BLOCK_128X128, TILG_BLOCK_4X16, TILG_BLOCK_16X4, TILG_BLOCK_8X32, TILG_BLOCK_32X8, TILG_BLOCK_16X64, TILG_BLOCK_64X16
} tilg_block_size;

/* The size of a transform: columns x rows. */
typedef enum {
    TILG_TX_4X4 = 0, TILG_TX_8X8, TILG_TX_16X16, TILG_TX_32X32, TILG_TX_64X64, TILG_TX_4X8, TILG_TX_8X4, TILG_TX_8X16, TILG_TX_16X8, TILG_TX_16X32,
    TILG_TX_32X16, TILG_TX_32X64, TILG_TX_64X32, TILG_TX_4X16, TILG_TX_16X4, TILG_TX_8X32, TILG_TX_32X8, TILG_TX_16X64, TILG_TX_64X16
} tilg_tx_size;

/* The type of a transform: first down columns, then along rows. */
typedef enum {
    TILG_DCT_DCT = 0, TILG_ADST_DCT, TILG_DCT_ADST, TILG_ADST_ADST, TILG_FLIPADST_DCT, TILG_DCT_FLIPADST,
    TILG_FLIPADST_FLIPADST, TILG_ADST_FLIPADST, TILG_FLIPADST_ADST, TILG_IDTX, TILG_V_DCT, TILG_H_DCT,
    TILG_V_ADST, TILG_H_ADST, TILG_V_FLIPADST, TILG_H_FLIPADST, TILG_WHT_WHT /* lossless, of 4x4 only */
} tilg_tx_type;

/* How a block is predicted: from its own frame (up to 13), from one reference (14 to 19) or from two. */
typedef enum {
    TILG_DC_PRED = 0, TILG_V_PRED, TILG_H_PRED, TILG_D45_PRED, TILG_D135_PRED, TILG_D113_PRED, TILG_D157_PRED,
    TILG_D203_PRED, TILG_D67_PRED, TILG_SMOOTH_PRED, TILG_SMOOTH_V_PRED, TILG_SMOOTH_H_PRED, TILG_PAETH_PRED,
    TILG_UV_CFL_PRED, /* chroma from luma */
    TILG_NEARESTMV = 14, TILG_NEAR0MV, TILG_NEAR1MV, TILG_NEAR2MV, TILG_GLOBALMV, TILG_NEWMV,
    TILG_NEAREST_NEARESTMV = 20, TILG_NEAR_NEAR0MV, TILG_NEAR_NEAR1MV, TILG_NEAR_NEAR2MV, TILG_NEAREST_NEWMV,
    TILG_NEW_NEARESTMV, TILG_NEAR_NEW0MV, TILG_NEAR_NEW1MV, TILG_NEAR_NEW2MV, TILG_NEW_NEAR0MV,
    TILG_NEW_NEAR1MV, TILG_NEW_NEAR2MV, TILG_GLOBAL_GLOBALMV, TILG_NEW_NEWMV,
    TILG_ANY_MODE = 255 /* stands for every mode */
} tilg_mode;

/* A filter of motion compensation, which has another form along a dimension of at most 4 samples. */
typedef enum {
    TILG_FILTER_REGULAR = 0,
    TILG_FILTER_SMOOTH = 1,
    TILG_FILTER_SHARP = 2,      /* there it is the regular filter, as in AV1 */
    TILG_FILTER_BILINEAR = 3,
    TILG_FILTER_RAV1E_SHARP = 5 /* there it is the smooth filter, as in rav1e and in plans up to version 2 */
} tilg_filter;

/* How many samples chroma has. */
typedef enum { TILG_420 = 0, TILG_422 = 1, TILG_444 = 2 } tilg_sampling;

/* How a node of the partition tree is cut: the mark of a plan. */
typedef enum {
    TILG_PARTITION_NONE = 0,   /* one leaf */
    TILG_PARTITION_HORZ = 1,   /* two leaves, one above the other */
    TILG_PARTITION_VERT = 2,   /* two leaves, one beside the other */
    TILG_PARTITION_SPLIT = 3,  /* four nodes; of a node of 8x8, four leaves */
    TILG_PARTITION_HORZ_4 = 8, /* four leaves from the top down */
    TILG_PARTITION_VERT_4 = 9  /* four leaves from left to right */
} tilg_partition;

/* The references of a frame. */
typedef enum {
    TILG_LAST_FRAME = 1, TILG_LAST2_FRAME = 2, TILG_LAST3_FRAME = 3, TILG_GOLDEN_FRAME = 4, TILG_BWDREF_FRAME = 5, TILG_ALTREF2_FRAME = 6,
    TILG_ALTREF_FRAME = 7
} tilg_reference;

/* ---- whole plans: the calls in this part except tilg_planes_len allocate, and have freed all of it when they return */

/* Why a plan is rejected. A call writes it if it returns TILG_MALFORMED or TILG_INVALID, and never otherwise.
 * Fields that don't apply are 0. */
typedef struct {
    uint32_t at;   /* TILG_MALFORMED: the offset in bytes of the first bad field: truncated, not valid, or left over */
    uint32_t leaf; /* TILG_INVALID: the first leaf that is rejected, counted from 0 in coding order */
    uint32_t kind; /* TILG_INVALID: why, a tilg_invalid_kind */
} tilg_refusal;

/* Computes how many bytes the planes of a plan have. It reads only the header, the first 20 bytes, and does not
 * allocate.
 *   len                TILG_DONE: the number of bytes
 *   refusal            TILG_MALFORMED: the bad field of the header
 *   bytes, bytes_len   the plan, or its first bytes
 * Returns TILG_DONE, TILG_TOO_LONG or TILG_MALFORMED. */
TILG_MUST_USE tilg_status tilg_planes_len(size_t *len, tilg_refusal *refusal, const uint8_t *bytes, size_t bytes_len);

/* Reconstructs a plan, and writes its visible planes to the front of `room`: Y, then U, then V, each
 * row by row without padding. A sample takes one byte at depth 8, else two, the low byte first. The
 * rest of `room` is unchanged.
 *   room, room_len     the buffer, in bytes. It may be NULL with length 0, to learn the length
 *   written            TILG_DONE: how many bytes the call has written; TILG_ROOM_TOO_SMALL: how many it needs
 *   refusal            TILG_MALFORMED, TILG_INVALID: the first bad field or the first bad leaf
 *   bytes, bytes_len   the plan, with nothing after it (docs/PLAN_FORMAT.md)
 * Returns TILG_DONE, TILG_OUT_OF_MEMORY, TILG_ROOM_TOO_SMALL, TILG_TOO_LONG, TILG_MALFORMED or TILG_INVALID. */
TILG_MUST_USE tilg_status tilg_reconstruct_plan(uint8_t *room, size_t room_len, size_t *written, tilg_refusal *refusal, const uint8_t *bytes, size_t bytes_len);

/* Why input that has plans as parts is rejected: tiles, or entries of a sequence. A call writes it if it returns
 * TILG_MALFORMED or a status of a part, and never otherwise. Fields that don't apply are 0. */
typedef struct {
    uint32_t part; /* a status of a part: the first part that is rejected, counted from 0 */
    uint32_t at;   /* TILG_MALFORMED: the offset in bytes of the first bad field; TILG_MALFORMED_PART: that offset within the part */
    uint32_t leaf; /* TILG_INVALID_PART: the first leaf of the part that is rejected */
    uint32_t kind; /* TILG_INVALID_PART: why, a tilg_invalid_kind */
} tilg_part_refusal;

/* Reconstructs a grid of tiles (docs/PLAN_FORMAT.md), and writes the visible planes of its frame in
 * the layout of tilg_reconstruct_plan.
 *   room .. written    as above
 *   refusal            TILG_MALFORMED: the first bad field; TILG_MALFORMED_PART, TILG_INVALID_PART: the
 *                      tile, and its first bad field or leaf
 *   bytes, bytes_len   the grid, with nothing after it
 * Returns TILG_DONE, TILG_OUT_OF_MEMORY, TILG_ROOM_TOO_SMALL, TILG_TOO_LONG, TILG_MALFORMED,
 * TILG_MALFORMED_PART or TILG_INVALID_PART. */
TILG_MUST_USE tilg_status tilg_reconstruct_tiles(uint8_t *room, size_t room_len, size_t *written, tilg_part_refusal *refusal, const uint8_t *bytes, size_t
    bytes_len);

/* Reconstructs a sequence of frames, and writes the visible planes of all shown frames, one frame after the other.
 * The parts of a sequence are its entries. If one is rejected, the call writes no frame.
 * Returns the statuses of tilg_reconstruct_tiles, and two more. TILG_TOO_LONG_PART: the plan of a frame,
 * with its references, would have more than 2^26 bytes. TILG_EMPTY_SLOT: an entry shows again the frame
 * of a slot that is empty. */
TILG_MUST_USE tilg_status tilg_reconstruct_sequence(uint8_t *room, size_t room_len, size_t *written, tilg_part_refusal *refusal, const uint8_t *bytes, size_t
    bytes_len);

/* The first visible sample of a leaf in one plane that differs from the sample that the plan defines. */
typedef struct {
    uint32_t leaf;    /* the leaf, counted from 0 in coding order */
    uint16_t y;       /* the row of the sample in its plane */
    uint16_t x;       /* the column of the sample in its plane */
    uint16_t given;   /* the sample that was given: up to 16 bits at every depth */
    uint16_t defined; /* the sample that the plan defines */
    uint8_t plane;    /* 0 for Y, 1 for U and 2 for V */
} tilg_difference;

/* Compares the planes of a plan with planes that another encoder left. Each leaf has at most one difference in
 * each of Y, U and V: the first visible sample of its rectangle, in raster order, that differs. They come in
 * coding order.
 *   room, room_len      the first differences, as many as fit; the rest is unchanged
 *   found               how many differences there are: 0 if the planes are the plan's
 *   refusal             TILG_MALFORMED, TILG_INVALID: the first bad field or the first bad leaf of the plan
 *   bytes, bytes_len    the plan
 *   y, y_len, y_stride  the bytes of plane Y from its first visible sample on, and how many bytes apart rows
 *                       begin. A sample takes one byte at depth 8, else two. The call reads only visible ones,
 *                       and the last row may end with its own
 *   u .. v_stride       likewise
 * Returns TILG_DONE, TILG_OUT_OF_MEMORY, TILG_TOO_LONG, TILG_MALFORMED, TILG_INVALID or TILG_BAD_AREA (a plane). */
TILG_MUST_USE tilg_status tilg_trace_differences(tilg_difference *room, size_t room_len, size_t *found, tilg_refusal *refusal, const uint8_t *bytes, size_t
    bytes_len, const uint8_t *y, size_t y_len, size_t y_stride, const uint8_t *u, size_t u_len, size_t u_stride, const uint8_t *v, size_t v_len, size_t v_stride);

/* ---- calls on blocks: none allocates. If several arguments are bad, the status is the first that the call's comment lists.
 * A call in _16 is the call in _8 for samples of 16 bits, at a depth of 8, 10 or 12. ---- */

/* Scratch memory: make one for each thread. Its contents don't matter. An address that is a multiple of 64 is best. */
typedef struct {
    int32_t words[19813];
} tilg_context;

/* Adds the residual of a block to samples at a depth of 8, and clips the sums: the AV1 specification's
 * "2D inverse transform process" and the addition of "Reconstruction".
 *   samples, samples_len, stride       the samples
 *   x, y                               the block's first sample
 *   coefficients, coefficients_len     column by column: row r of column c is at c * min(height, 32) + r.
 *                                      Rows and columns from 32 on have no coefficients. The list may
 *                                      end after the last nonzero one: missing ones are 0 and cost
 *                                      nothing. Elements after the transform's are not read
 *   tx_size, tx_type                   a tilg_tx_size and a tilg_tx_type
 * Returns TILG_DONE, TILG_BAD_SIZE, TILG_BAD_TYPE or TILG_BAD_AREA. */
TILG_MUST_USE tilg_status tilg_inverse_transform_add_8(uint8_t *samples, size_t samples_len, size_t stride, size_t x, size_t y, tilg_context *context,
    const int16_t *coefficients, size_t coefficients_len, uint8_t tx_size, uint8_t tx_type);

/* The same at a depth of 8, 10 or 12. A coefficient has at most bit_depth + 8 bits, sign included: clamp those
 * that you dequantize, as the AV1 specification's "Reconstruction" does. A sample past the depth is clipped
 * after the addition.
 * Returns also TILG_BAD_DEPTH or TILG_BAD_COEFFICIENT. */
TILG_MUST_USE tilg_status tilg_inverse_transform_add_16(uint16_t *samples, size_t samples_len, size_t stride, size_t x, size_t y, tilg_context *context,
    const int32_t *coefficients, size_t coefficients_len, uint8_t tx_size, uint8_t tx_type, uint8_t bit_depth);

/* tilg_inverse_transform_add_16 by rav1e's rules, which differ from AV1's above a depth of 8. At depth 12 the
 * identities of 4 and 16 values along rows wrap at 32 bits. Example: a 4x4 block of TILG_IDTX has the single
 * coefficient 400,000. By this call the first sample becomes 0, by the one above 4095. Lossless blocks
 * (TILG_WHT_WHT) are clamped between the passes, like all other blocks.
 * Returns the same statuses. */
TILG_MUST_USE tilg_status tilg_inverse_transform_add_rav1e_16(uint16_t *samples, size_t samples_len, size_t stride, size_t x, size_t y, tilg_context *context,
    const int32_t *coefficients, size_t coefficients_len, uint8_t tx_size, uint8_t tx_type, uint8_t bit_depth);

/* ---- prediction from references */

/* A block, and how far it is moved between the samples of its reference. */
typedef struct {
    size_t width;       /* columns of the block: 1 to 128 */
    size_t height;      /* rows of the block: 1 to 128 */
    uint8_t fraction_x; /* how far it is moved right, in sixteenths of a sample: below 16 */
    uint8_t fraction_y; /* how far it is moved down, likewise */
    uint8_t filter_x;   /* the filter along rows: a tilg_filter */
    uint8_t filter_y;   /* the filter down columns: a tilg_filter */
} tilg_motion_block;

/* Predicts a block of samples of 8 bits from one reference: the AV1 specification's "Block inter
 * prediction process".
 *   dst, dst_len, dst_stride    the samples to write
 *   dst_x, dst_y                the first sample to write
 *   src, src_len, src_stride    the reference
 *   src_x, src_y                the block's first sample in the reference, before the fractions. If the
 *                               fraction along x is not 0, the call also reads 3 columns before the block
 *                               and 4 after it; the same holds for y and rows. The last row that is read
 *                               may end with its own samples
 *   block                       its width and height, the fractions and the filters
 * Returns TILG_DONE, TILG_BAD_SIZE (width or height), TILG_BAD_MODE (a filter), TILG_BAD_FRACTION or
 * TILG_BAD_AREA (either rectangle). */
TILG_MUST_USE tilg_status tilg_put_8tap_8(uint8_t *dst, size_t dst_len, size_t dst_stride, size_t dst_x, size_t dst_y, const uint8_t *src, size_t src_len,
    size_t src_stride, size_t src_x, size_t src_y, const tilg_motion_block *block);

/* Prepares a block of samples of 8 bits for the average with another block: the process of
 * tilg_put_8tap_8, with the rounding of compound prediction. A value is 16 times a sample.
 *   values, values_len          the first `height * width` are written, row by row; the rest is unchanged
 *   src .. block                as above
 * Returns TILG_DONE, TILG_BAD_SIZE, TILG_BAD_MODE, TILG_BAD_FRACTION, TILG_BAD_AREA or TILG_TOO_SHORT (the
 * values). */
TILG_MUST_USE tilg_status tilg_prep_8tap_8(int16_t *values, size_t values_len, const uint8_t *src, size_t src_len, size_t src_stride, size_t src_x, size_t
    src_y, const tilg_motion_block *block);

/* Checks that every sample of a rectangle is below 1 << bit_depth, as the calls below require.
 *   samples, samples_len, stride    the samples
 *   x, y, width, height             the rectangle: its first sample, width and height. The last row may end
 *                                   with its own samples
 * Returns TILG_DONE (all are), TILG_BAD_AREA, TILG_BAD_DEPTH or TILG_BAD_SAMPLE (one is not). */
TILG_MUST_USE tilg_status tilg_test_samples_16(const uint16_t *samples, size_t samples_len, size_t stride, size_t x, size_t y, size_t width, size_t height,
    uint8_t bit_depth);

/* tilg_put_8tap_8 and tilg_prep_8tap_8 for samples of 16 bits. These calls don't check samples: the caller must
 * guarantee that every sample they read is below 1 << bit_depth. tilg_test_samples_16 checks a whole reference
 * once. A prepared value is 16 times a sample, 4 times at depth 12, and from depth 10 on less by 8192.
 * They return also TILG_BAD_DEPTH. */
TILG_MUST_USE tilg_status tilg_put_tested_16(uint16_t *dst, size_t dst_len, size_t dst_stride, size_t dst_x, size_t dst_y, const uint16_t *src, size_t src_len,
    size_t src_stride, size_t src_x, size_t src_y, const tilg_motion_block *block, uint8_t bit_depth);
TILG_MUST_USE tilg_status tilg_prep_tested_16(int16_t *values, size_t values_len, const uint16_t *src, size_t src_len, size_t src_stride, size_t src_x, size_t
    src_y, const tilg_motion_block *block, uint8_t bit_depth);

/* Averages two prepared blocks at a depth of 8.
 *   samples, samples_len, stride    the samples
 *   x, y, width, height             the rectangle to write: its first sample, width and height (1 to 128)
 *   first, first_len                the values of one block, row by row, as tilg_prep_8tap_8 leaves
 *                                   them. Elements after the block's are not read
 *   second, second_len              the values of the other block
 * Returns TILG_DONE, TILG_BAD_SIZE, TILG_BAD_AREA or TILG_TOO_SHORT; the call in _16 also TILG_BAD_DEPTH. */
TILG_MUST_USE tilg_status tilg_mc_avg_8(uint8_t *samples, size_t samples_len, size_t stride, size_t x, size_t y, size_t width, size_t height, const int16_t
    *first, size_t first_len, const int16_t *second, size_t second_len);
TILG_MUST_USE tilg_status tilg_mc_avg_16(uint16_t *samples, size_t samples_len, size_t stride, size_t x, size_t y, size_t width, size_t height, const int16_t
    *first, size_t first_len, const int16_t *second, size_t second_len, uint8_t bit_depth);

/* A plane of a reference. */
typedef struct {
    size_t stride;
    size_t x;               /* the column of its first visible sample */
    size_t y;               /* the row of its first visible sample */
    size_t width;           /* how many visible columns it has: 1 to 65,536 */
    size_t height;          /* how many visible rows, likewise */
    uint8_t halved_columns; /* 0 or 1 */
    uint8_t halved_rows;    /* 0 or 1 */
} tilg_motion_plane;

/* A block of a plane, and the vector that moves it. */
typedef struct {
    size_t x;         /* the column of its first sample in the visible plane, up to 65,536 */
    size_t y;         /* the row, likewise */
    size_t width;     /* columns of the block: 1 to 128 */
    size_t height;    /* rows of the block: 1 to 128 */
    int16_t mv_y;     /* how far the vector points down, in eighths of a luma sample */
    int16_t mv_x;     /* how far it points to the right, likewise */
    uint8_t filter_x; /* the filter along rows: a tilg_filter */
    uint8_t filter_y; /* the filter down columns: a tilg_filter */
} tilg_moved_block;

/* Predicts a block of samples of 8 bits from a reference without padding: the AV1 specification's
 * "motion vector scaling process" at a scale of one and its "Block inter prediction process". The call follows
 * the vector and reads only visible samples. Outside the plane, every sample equals the nearest edge sample.
 *   dst .. dst_y         as in tilg_put_8tap_8
 *   src, src_len         the samples of the reference
 *   plane                which of them are visible, and how the plane is halved
 *   block                its place in the plane, width and height, vector and filters
 * Returns TILG_DONE, TILG_BAD_SIZE (the block's width or height), TILG_BAD_MODE (a filter) or TILG_BAD_AREA.
 * TILG_BAD_AREA: the plane has no samples or does not lie in `src`, or the rectangle does not lie in `dst`,
 * or the plane or the block's place is past 65,536. */
TILG_MUST_USE tilg_status tilg_put_moved_8(uint8_t *dst, size_t dst_len, size_t dst_stride, size_t dst_x, size_t dst_y, tilg_context *context,
    const uint8_t *src, size_t src_len, const tilg_motion_plane *plane, const tilg_moved_block *block);

/* The same for samples of 16 bits, which it doesn't check, like tilg_put_tested_16.
 * Returns also TILG_BAD_DEPTH. */
TILG_MUST_USE tilg_status tilg_put_moved_16(uint16_t *dst, size_t dst_len, size_t dst_stride, size_t dst_x, size_t dst_y, tilg_context *context,
    const uint16_t *src, size_t src_len, const tilg_motion_plane *plane, const tilg_moved_block *block, uint8_t bit_depth);

/* Prepares such a block for the average with another block: the process of tilg_put_moved_8, with the
 * values of tilg_prep_8tap_8 and tilg_prep_tested_16.
 * Returns the statuses of the calls above, or TILG_TOO_SHORT (the values). */
TILG_MUST_USE tilg_status tilg_prep_moved_8(int16_t *values, size_t values_len, tilg_context *context, const uint8_t *src, size_t src_len, const
    tilg_motion_plane *plane, const tilg_moved_block *block);
TILG_MUST_USE tilg_status tilg_prep_moved_16(int16_t *values, size_t values_len, tilg_context *context, const uint16_t *src, size_t src_len, const
    tilg_motion_plane *plane, const tilg_moved_block *block, uint8_t bit_depth);

/* ---- prediction from the block's own frame */

/* A block that an intra mode predicts. */
typedef struct {
    uint8_t mode;             /* a tilg_mode: TILG_DC_PRED to TILG_PAETH_PRED */
    uint8_t tx_size;          /* its size: a tilg_tx_size */
    int8_t angle_step;        /* how many steps of 3 degrees a mode with a direction turns: -3 to 3; 0 in other modes */
    uint8_t bit_depth;        /* 8, 10 or 12 */
    uint8_t has_left;         /* flag: the left edge lies in the block's tile */
    uint8_t has_above;        /* flag: the edge above lies in the block's tile */
    uint8_t edge_filter;      /* flag: edges are filtered */
    uint8_t smooth_neighbour; /* flag: a neighbour has a smooth mode (IsSmooth); not read if the filter is off */
    size_t visible_columns;   /* how many visible columns the plane has from the block's first one on: the filter smooths none past them */
    size_t visible_rows;      /* how many visible rows, likewise */
} tilg_intra_block;

/* Predicts a block by its intra mode from the edges around it. All other samples are unchanged.
 *   samples, samples_len, stride  the samples
 *   x, y                  the block's first sample
 *   left, left_len        from the bottom up: the last sample is next to the first row
 *   corner                the sample between the two edges
 *   above, above_len      from left to right
 * The call reads the samples of each edge that are nearest to the corner: none, or as many as the
 * block has rows (left) or columns (above). A direction below 90 degrees reads columns plus rows
 * above, one past 180 degrees reads rows plus columns on the left. Samples past the depth are used.
 * Returns TILG_DONE, TILG_BAD_MODE, TILG_BAD_SIZE, TILG_BAD_ANGLE, TILG_BAD_DEPTH (tilg_predict_intra_8
 * allows only 8), TILG_BAD_AREA or TILG_TOO_SHORT. */
TILG_MUST_USE tilg_status tilg_predict_intra_8(uint8_t *samples, size_t samples_len, size_t stride, size_t x, size_t y, const tilg_intra_block *block, const
    uint8_t *left, size_t left_len, uint8_t corner, const uint8_t *above, size_t above_len);
TILG_MUST_USE tilg_status tilg_predict_intra_16(uint16_t *samples, size_t samples_len, size_t stride, size_t x, size_t y, const tilg_intra_block *block, const
    uint16_t *left, size_t left_len, uint16_t corner, const uint16_t *above, size_t above_len);

/* Predicts a block of chroma from luma: to the DC prediction from the edges inside the tile, it adds
 * for each sample `alpha` times the luma difference in `ac`, and clips to the depth. Everything else
 * is as in tilg_predict_intra_8, except that the block's mode is not read and that its angle_step must
 * be 0.
 *   ac, ac_len            the differences of luma from its mean, in eighths, row by row: as many as
 *                         the block has samples
 *   alpha                 the weight, in eighths
 * Returns the statuses of tilg_predict_intra_8 except TILG_BAD_MODE. */
TILG_MUST_USE tilg_status tilg_predict_cfl_8(uint8_t *samples, size_t samples_len, size_t stride, size_t x, size_t y, const tilg_intra_block *block, const
    uint8_t *left, size_t left_len, const uint8_t *above, size_t above_len, const int16_t *ac, size_t ac_len, int16_t alpha);
TILG_MUST_USE tilg_status tilg_predict_cfl_16(uint16_t *samples, size_t samples_len, size_t stride, size_t x, size_t y, const tilg_intra_block *block, const
    uint16_t *left, size_t left_len, const uint16_t *above, size_t above_len, const int16_t *ac, size_t ac_len, int16_t alpha);

/* How many samples a prepared edge has. */
#define TILG_EDGE_SAMPLES 257

/* A plane in the caller's memory, and a tile of it. */
typedef struct {
    size_t stride;
    size_t x;               /* the column of its first visible sample */
    size_t y;               /* the row of its first visible sample */
    size_t width;           /* how many visible columns it has */
    size_t height;          /* how many visible rows it has */
    size_t tile_x;          /* the first column of the tile, counted from the first visible one */
    size_t tile_y;          /* the first row of the tile, likewise */
    size_t tile_width;      /* how many columns the tile has in this plane */
    size_t tile_height;     /* how many rows it has */
    uint8_t halved_columns; /* 0 or 1 */
    uint8_t halved_rows;    /* 0 or 1 */
} tilg_edge_plane;

/* A transform block whose edge is to be prepared. */
typedef struct {
    size_t x;            /* the column of its first sample in the tile */
    size_t y;            /* the row of its first sample in the tile */
    size_t cell_x;       /* the column of its block in the tile, counted in cells of 4 by 4 luma samples */
    size_t cell_y;       /* the row of its block in the tile, counted in cells */
    size_t unit_x;       /* its column in its block, counted in transforms */
    size_t unit_y;       /* its row in its block, counted in transforms */
    uint8_t block_size;  /* the block's size in luma: a tilg_block_size */
    uint8_t tx_size;     /* its own size: a tilg_tx_size */
    uint8_t mode;        /* the mode that will predict it: TILG_DC_PRED to TILG_UV_CFL_PRED, or TILG_ANY_MODE: the whole edge */
    int8_t angle_step;   /* as in tilg_intra_block; not read with TILG_ANY_MODE */
    uint8_t bit_depth;   /* 8, 10 or 12 */
    uint8_t edge_filter; /* flag */
} tilg_edge_block;

/* Prepares the edge of a transform block from the samples of its plane, for the mode that will predict
 * the block. tilg_predict_intra_8 then takes (edge, 128), edge[128] and (edge + 129, 128).
 *   edge, edge_len        TILG_EDGE_SAMPLES samples or more; the call leaves what follows them
 *                         unchanged. The first 128 are the left edge, from the bottom up: the last of
 *                         them is next to the block's first row. Sample 128 is the corner. The edge
 *                         above follows it. Samples that the mode does not read have no defined value
 *   samples, samples_len  the samples of the plane; those before the block in coding order must be
 *                         reconstructed already
 * The call does not check that `x` and `y` agree with the cell and the unit. Samples past the depth are used.
 * Returns TILG_DONE, TILG_ROOM_TOO_SMALL, TILG_BAD_MODE, TILG_BAD_SIZE (of the transform or the block),
 * TILG_BAD_ANGLE, TILG_BAD_DEPTH (tilg_intra_edge_8 allows only 8) or TILG_BAD_AREA. TILG_BAD_AREA: the
 * plane does not lie in the samples, or the tile not in the plane, or the transform does not begin in
 * the tile, or begins 65536 or more units of 4 samples from its block's first sample. */
TILG_MUST_USE tilg_status tilg_intra_edge_8(uint8_t *edge, size_t edge_len, const uint8_t *samples, size_t samples_len, const tilg_edge_plane *plane, const
    tilg_edge_block *block);
TILG_MUST_USE tilg_status tilg_intra_edge_16(uint16_t *edge, size_t edge_len, const uint16_t *samples, size_t samples_len, const tilg_edge_plane *plane, const
    tilg_edge_block *block);

/* Predicts a transform block in the samples of its plane, from the edge that tilg_intra_edge_8 prepares, as
 * tilg_predict_intra_8 does, or as tilg_predict_cfl_8 does for TILG_UV_CFL_PRED. All other samples are unchanged.
 * The position and `plane` say whether an edge lies in the tile, and how many samples are visible.
 *   samples .. block      as above, except that TILG_ANY_MODE is rejected (TILG_BAD_MODE, checked last)
 *   smooth_neighbour      as in tilg_intra_block
 *   ac, ac_len, alpha     TILG_UV_CFL_PRED: as in tilg_predict_cfl_8; not read in other modes
 * Returns the statuses of tilg_intra_edge_8 except TILG_ROOM_TOO_SMALL. TILG_BAD_AREA also says that the
 * block does not lie in the samples. TILG_TOO_SHORT: `ac` has fewer elements than the block has
 * samples. */
TILG_MUST_USE tilg_status tilg_predict_in_plane_8(uint8_t *samples, size_t samples_len, const tilg_edge_plane *plane, const tilg_edge_block *block, uint8_t
    smooth_neighbour, const int16_t *ac, size_t ac_len, int16_t alpha);
TILG_MUST_USE tilg_status tilg_predict_in_plane_16(uint16_t *samples, size_t samples_len, const tilg_edge_plane *plane, const tilg_edge_block *block, uint8_t
    smooth_neighbour, const int16_t *ac, size_t ac_len, int16_t alpha);

/* A block of chroma that is predicted from luma. */
typedef struct {
    uint8_t block_size;     /* its size in samples of chroma: a tilg_block_size of at most 32x32 */
    uint8_t halved_columns; /* 0 or 1 */
    uint8_t halved_rows;    /* 0 or 1: 1 only if columns are halved too */
    size_t w_pad;           /* how many units of 4 columns of chroma, at the right end of the block, have no luma of their own */
    size_t h_pad;           /* how many units of 4 rows of chroma, at the bottom end, have none */
} tilg_cfl_block;

/* Computes how far the luma over each sample of a chroma block is from the mean, in eighths: the AV1
 * specification's "predict chroma from luma process".
 *   ac, ac_len              the differences, row by row: as many as the block has samples, or more. The
 *                           rest is unchanged
 *   luma, luma_len, stride  samples of luma
 *   x, y                    the block's first luma sample
 * The call reads the luma columns over the chroma columns that have luma of their own. It reads at
 * least 8 luma columns, but none past the block. The other chroma columns repeat the last luma that is
 * read. The same holds for rows.
 * The call in _16 is for any depth: the caller must guarantee that every sample it reads is below 4096.
 * Returns TILG_DONE, TILG_BAD_SIZE, TILG_BAD_SAMPLING, TILG_BAD_PAD, TILG_BAD_AREA or TILG_TOO_SHORT. */
TILG_MUST_USE tilg_status tilg_cfl_ac_8(int16_t *ac, size_t ac_len, const uint8_t *luma, size_t luma_len, size_t stride, size_t x, size_t y, const
    tilg_cfl_block *block);
TILG_MUST_USE tilg_status tilg_cfl_ac_tested_16(int16_t *ac, size_t ac_len, const uint16_t *luma, size_t luma_len, size_t stride, size_t x, size_t y, const
    tilg_cfl_block *block);

/* A block whose chroma is predicted from its luma. */
typedef struct {
    uint8_t block_size;     /* its size in luma: a tilg_block_size */
    uint8_t tx_size;        /* the size of its luma transforms: a tilg_tx_size */
    uint8_t halved_columns; /* of its chroma: 0 or 1 */
    uint8_t halved_rows;    /* of its chroma: 0 or 1 */
    size_t visible_columns; /* how many visible columns of luma there are from its first one on */
    size_t visible_rows;    /* how many visible rows, likewise */
} tilg_luma_block;

/* Finds the chroma block that is predicted from the luma of a block. A unit has no luma of its own if no transform
 * that begins in the visible plane codes it (MaxLumaW and MaxLumaH of the AV1 specification).
 * A block with a dimension of 4 that is halved shares its chroma with the block before it. The calls
 * above then read all 8 luma samples of both blocks: `x` and `y` are those of the first.
 * Returns TILG_DONE, TILG_BAD_SAMPLING, TILG_BAD_SIZE or TILG_BAD_PAD (none of its luma is visible).
 * TILG_BAD_SIZE also: the chroma has no size of at most 32. */
TILG_MUST_USE tilg_status tilg_cfl_block_of(tilg_cfl_block *block, const tilg_luma_block *luma);

/* ---- plans built field by field
 *
 * An encoder gives the fields of a plan while it encodes:
 *   1. tilg_builder_begin gives the header.
 *   2. tilg_builder_reference gives the planes of each slot that the mask names, in rising order.
 *   3. For each superblock, tilg_builder_mark gives the mark of each node before its parts, and
 *      tilg_builder_leaf gives each leaf. Parts that begin outside the frame are left out.
 *   4. tilg_builder_finish says how long the plan is.
 * tilg_builder_next says at any time which field comes next. Each call appends to the bytes of the plan at the
 * front of `room`. Between calls you may move them to a longer buffer. A tilg_builder holds what comes next; only
 * these calls may write it. To be able to go back, copy it, and keep the bytes. No call allocates. */

/* The frame of a plan, and what holds for all its leaves. */
typedef struct {
    uint16_t width;      /* visible columns of luma: 1 to 2048; up to version 2 a multiple of 8 */
    uint16_t height;     /* visible rows of luma: likewise */
    uint8_t version;     /* 1; 2 adds nodes cut into four strips (TILG_PARTITION_HORZ_4); 3 adds any width and height (docs/PLAN_FORMAT.md) */
    uint8_t bit_depth;   /* 8, 10 or 12 */
    uint8_t sampling;    /* a tilg_sampling */
    uint8_t filter;      /* a tilg_filter: 0 to 3 */
    uint8_t edge_filter; /* flag: intra edges are filtered */
    uint8_t mask;        /* the slots that carry planes: bit s stands for slot s */
    uint8_t slots[7];    /* the slot, 0 to 7, of each reference from LAST to ALTREF */
} tilg_plan_header;

/* A part of a superblock. */
typedef struct {
    uint8_t kind;   /* 1 for a node, 0 for a leaf */
    uint8_t number; /* of a node log2(side / 4), of a leaf its tilg_block_size */
    uint16_t x, y;  /* its first sample, in luma samples */
} tilg_builder_part;

/* What a plan expects next: read it by tilg_builder_next. Calls write and check it. */
typedef struct {
    size_t written; /* how many bytes of the plan are in the buffer */
    size_t slot;    /* the slot whose planes come next, or 8 */
    size_t count;   /* how many parts of the current superblock come: those of `parts`, the next one last */
    uint16_t superblock_y, superblock_x; /* the next superblock, counted in superblocks of 64x64 */
    tilg_plan_header header;
    tilg_builder_part parts[13];
} tilg_builder;

/* The kind of field that a plan expects next. */
typedef enum {
    TILG_NEXT_NOTHING = 0,   /* the plan is complete */
    TILG_NEXT_REFERENCE = 1, /* the planes of a slot, tilg_builder_reference */
    TILG_NEXT_MARK = 2,      /* the mark of a node, tilg_builder_mark */
    TILG_NEXT_LEAF = 3       /* a leaf, tilg_builder_leaf */
} tilg_next_kind;

/* The field that a plan expects next. */
typedef struct {
    size_t slot;  /* TILG_NEXT_REFERENCE: the slot; else 8 */
    uint8_t kind; /* a tilg_next_kind */
    uint8_t size; /* of the node or the leaf: a tilg_block_size */
    uint16_t x;   /* its first column, in luma samples */
    uint16_t y;   /* its first row, in luma samples */
} tilg_next_field;

/* A coefficient of a leaf in one plane. */
typedef struct {
    int32_t value;
    uint16_t place; /* its place in the block's list of coefficients */
    uint8_t block;  /* the transform block, numbered in raster order over the leaf's rectangle in the plane */
} tilg_coefficient;

/* A reference and its vector, in eighths of a luma sample. */
typedef struct {
    int16_t mv_y;      /* down */
    int16_t mv_x;      /* to the right */
    uint8_t reference; /* a tilg_reference */
} tilg_motion;

/* The fields of a leaf except its coefficients. Leave what a leaf does not have at 0. */
typedef struct {
    tilg_motion first;         /* the reference, or the first of two */
    tilg_motion second;        /* the second of two references */
    uint8_t mode;              /* a tilg_mode */
    int8_t angle_step;         /* without references: steps of 3 degrees on the mode's angle, -3 to 3 */
    uint8_t has_chroma;        /* flag: the leaf carries chroma */
    uint8_t chroma_mode;       /* without references, if chroma is carried: a tilg_mode up to TILG_UV_CFL_PRED */
    int8_t chroma_angle_step;  /* steps of 3 degrees on that mode's angle, -3 to 3 */
    int8_t alpha_u;            /* the weights of chroma from luma, in eighths */
    int8_t alpha_v;
    uint8_t tx_size;           /* the size of the luma transforms: a tilg_tx_size */
    uint8_t tx_type;           /* the type of the luma transforms: a tilg_tx_type */
    uint8_t chroma_tx_type;    /* the type of the chroma transforms, if chroma is carried: a tilg_tx_type */
} tilg_leaf;

/* Begins a plan: writes its header, 20 bytes, to the front of `room`. The old contents of the builder
 * are lost.
 * Returns TILG_DONE, TILG_NOT_ADMITTED or TILG_ROOM_TOO_SMALL. */
TILG_MUST_USE tilg_status tilg_builder_begin(tilg_builder *builder, uint8_t *room, size_t room_len, const tilg_plan_header *header);

/* Gives the planes of the next slot in the mask, each row by row without padding.
 * Returns TILG_DONE, TILG_NOT_NOW (the plan does not expect planes), TILG_NOT_ADMITTED (a plane has the
 * wrong number of samples, or a sample is not below 1 << bit_depth), TILG_TOO_LONG, TILG_ROOM_TOO_SMALL or
 * TILG_BAD_STATE. */
TILG_MUST_USE tilg_status tilg_builder_reference(tilg_builder *builder, uint8_t *room, size_t room_len, const uint16_t *y, size_t y_len, const uint16_t *u,
    size_t u_len, const uint16_t *v, size_t v_len);

/* Gives the mark of the next node: a tilg_partition.
 * Returns the statuses of tilg_builder_reference. */
TILG_MUST_USE tilg_status tilg_builder_mark(tilg_builder *builder, uint8_t *room, size_t room_len, uint8_t mark);

/* Which field of a leaf is not valid: the first in this order. */
typedef enum {
    TILG_FIELD_TX_SIZE = 1, TILG_FIELD_TX_TYPE = 2, TILG_FIELD_CHROMA_TX_TYPE = 3,
    TILG_FIELD_HAS_CHROMA = 4, /* set though the leaf carries none, or 0 though it carries chroma */
    TILG_FIELD_MODE = 5, TILG_FIELD_CHROMA_MODE = 6, TILG_FIELD_FIRST = 7, TILG_FIELD_SECOND = 8,
    TILG_FIELD_COEFFICIENTS = 9 /* more than 65,535 in a plane, or some of chroma that the leaf does not carry */
} tilg_leaf_field;

/* Gives the next leaf, with its coefficients in Y, U and V. Its size and its position follow from the marks.
 *   field   TILG_NOT_ADMITTED: a tilg_leaf_field; else unchanged
 * Returns the statuses of tilg_builder_reference. */
TILG_MUST_USE tilg_status tilg_builder_leaf(tilg_builder *builder, uint8_t *room, size_t room_len, uint32_t *field, const tilg_leaf *leaf, const tilg_coefficient *y, size_t
    y_len, const tilg_coefficient *u, size_t u_len, const tilg_coefficient *v, size_t v_len);

/* Says which field the plan expects next.
 * Returns TILG_DONE or TILG_BAD_STATE. */
TILG_MUST_USE tilg_status tilg_builder_next(tilg_next_field *next, const tilg_builder *builder);

/* Says how many bytes the finished plan has: those at the front of `room`. The builder is unchanged.
 * Returns TILG_DONE, TILG_NOT_NOW (a field is still missing) or TILG_BAD_STATE. */
TILG_MUST_USE static inline tilg_status tilg_builder_finish(size_t *len, const tilg_builder *builder, const uint8_t *room, size_t room_len) {
    tilg_next_field next;
    (void)room;
    if (tilg_builder_next(&next, builder) != TILG_DONE || builder->written > room_len) return TILG_BAD_STATE;
    if (next.kind != TILG_NEXT_NOTHING) return TILG_NOT_NOW;
    *len = builder->written;
    return TILG_DONE;
}

/* A length of `room` that is enough for every plan with this header and this many coefficients in all: a superblock
 * has at most 85 marks, and 256 leaves of 20 bytes. No plan has more than 2^26 bytes. */
static inline size_t tilg_builder_bound(const tilg_plan_header *header, size_t coefficients) {
    const size_t most = (size_t)1 << 26, width = header->width, height = header->height;
    size_t across = header->sampling < TILG_444 ? (width + 1) / 2 : width, down = header->sampling < TILG_422 ? (height + 1) / 2 : height;
    size_t slot = (width * height + 2 * across * down) * (header->bit_depth > 8 ? 2 : 1), bytes = 20;
    for (int s = 0; s < 8; s++) bytes += header->mask >> s & 1 ? slot : 0;
    bytes += (width + 63) / 64 * ((height + 63) / 64) * (85 + 256 * 20);
    return coefficients < most / 7 && bytes + 7 * coefficients < most ? bytes + 7 * coefficients : most;
}

#ifdef __cplusplus
}
#endif

#endif
