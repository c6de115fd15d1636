/* For codecs: the numbers that the calls of tilgwaren.h take, from a width and a height, from an angle, and from an end
 * of block. These functions are C. They are tested, not proved.
 *
 *     block.tx_size = tilg_tx_size_of(16, 8);
 *     size_t len = tilg_coefficients_len(block.tx_size, tx_type, eob);
 *
 * If there is no such size or mode, a function returns a number that every call rejects. */
#ifndef TILGWAREN_CODEC_H
#define TILGWAREN_CODEC_H

#include "tilgwaren.h"

#ifdef __cplusplus
extern "C" {
#endif

/* ---- sizes from a width and a height, in samples */

/* No size has this number: a call with it returns TILG_BAD_SIZE. */
#define TILG_NO_SIZE 255

/* log2(side / 4) if that is a whole number below 6, else 6. */
static inline int tilg_side_number(size_t side) {
    int number = 0;
    while (number < 6 && side != (size_t)4 << number) number++;
    return number;
}

/* The tilg_tx_size of this width and height, or TILG_NO_SIZE. */
static inline uint8_t tilg_tx_size_of(size_t width, size_t height) {
    static const uint8_t sizes[5][5] = {
        {TILG_TX_4X4, TILG_TX_4X8, TILG_TX_4X16, TILG_NO_SIZE, TILG_NO_SIZE},
        {TILG_TX_8X4, TILG_TX_8X8, TILG_TX_8X16, TILG_TX_8X32, TILG_NO_SIZE},
        {TILG_TX_16X4, TILG_TX_16X8, TILG_TX_16X16, TILG_TX_16X32, TILG_TX_16X64},
        {TILG_NO_SIZE, TILG_TX_32X8, TILG_TX_32X16, TILG_TX_32X32, TILG_TX_32X64},
        {TILG_NO_SIZE, TILG_NO_SIZE, TILG_TX_64X16, TILG_TX_64X32, TILG_TX_64X64}
    };
    const int w = tilg_side_number(width), h = tilg_side_number(height);
    return w < 5 && h < 5 ? sizes[w][h] : (uint8_t)TILG_NO_SIZE;
}

/* The tilg_block_size of this width and height, or TILG_NO_SIZE. For a tilg_cfl_block, these are of its chroma. */
static inline uint8_t tilg_block_size_of(size_t width, size_t height) {
    static const uint8_t sizes[6][6] = {
        {TILG_BLOCK_4X4, TILG_BLOCK_4X8, TILG_BLOCK_4X16, TILG_NO_SIZE, TILG_NO_SIZE, TILG_NO_SIZE},
        {TILG_BLOCK_8X4, TILG_BLOCK_8X8, TILG_BLOCK_8X16, TILG_BLOCK_8X32, TILG_NO_SIZE, TILG_NO_SIZE},
        {TILG_BLOCK_16X4, TILG_BLOCK_16X8, TILG_BLOCK_16X16, TILG_BLOCK_16X32, TILG_BLOCK_16X64, TILG_NO_SIZE},
        {TILG_NO_SIZE, TILG_BLOCK_32X8, TILG_BLOCK_32X16, TILG_BLOCK_32X32, TILG_BLOCK_32X64, TILG_NO_SIZE},
        {TILG_NO_SIZE, TILG_NO_SIZE, TILG_BLOCK_64X16, TILG_BLOCK_64X32, TILG_BLOCK_64X64, TILG_BLOCK_64X128},
        {TILG_NO_SIZE, TILG_NO_SIZE, TILG_NO_SIZE, TILG_NO_SIZE, TILG_BLOCK_128X64, TILG_BLOCK_128X128}
    };
    const int w = tilg_side_number(width), h = tilg_side_number(height);
    return w < 6 && h < 6 ? sizes[w][h] : (uint8_t)TILG_NO_SIZE;
}

/* ---- modes from angles */

/* A mode with a direction, and how many steps of 3 degrees it turns: the fields of these names of a tilg_intra_block
 * or a tilg_edge_block. */
typedef struct {
    uint8_t mode;      /* a tilg_mode */
    int8_t angle_step; /* -3 to 3 */
} tilg_turned_mode;

/* The angle of a mode without steps, in degrees: Mode_To_Angle of the AV1 specification. 0 for a mode that has no
 * direction. */
static inline int tilg_mode_angle(uint8_t mode) {
    static const uint8_t angles[9] = {0, 90, 180, 45, 135, 113, 157, 203, 67};
    return mode < 9 ? angles[mode] : 0;
}

/* The angle of a mode and its steps, in degrees: pAngle of the AV1 specification. */
static inline int tilg_angle_of(tilg_turned_mode turned) {
    return tilg_mode_angle(turned.mode) + 3 * turned.angle_step;
}

/* The mode and the steps with this angle, in degrees. If no mode turns to it, the steps are 127: a call with them returns
 * TILG_BAD_ANGLE. */
static inline tilg_turned_mode tilg_mode_of_angle(int angle) {
    tilg_turned_mode turned = {TILG_V_PRED, 127};
    for (uint8_t mode = TILG_V_PRED; mode <= TILG_D67_PRED; mode++) {
        const int turn = angle - tilg_mode_angle(mode);
        if (turn < -9 || 9 < turn || turn % 3) continue;
        turned.mode = mode;
        turned.angle_step = (int8_t)(turn / 3);
    }
    return turned;
}

/* ---- coefficients from an end of block */

/* The `coefficients_len` that tilg_inverse_transform_add_8 needs for the first `eob` coefficients in the order of the AV1
 * specification's "get scan function". The library's list has another order: up to its last nonzero one it can be longer
 * than `eob`. An `eob` of 1 is only the first coefficient. */
static inline size_t tilg_coefficients_len(uint8_t tx_size, uint8_t tx_type, size_t eob) {
    /* log2 of the columns and rows that have coefficients */
    static const uint8_t columns[19] = {2, 3, 4, 5, 5, 2, 3, 3, 4, 4, 5, 5, 5, 2, 4, 3, 5, 4, 5};
    static const uint8_t rows[19] = {2, 3, 4, 5, 5, 3, 2, 4, 3, 5, 4, 5, 5, 4, 2, 5, 3, 5, 4};
    if (tx_size > TILG_TX_64X16 || eob == 0) return 0;
    const size_t w = (size_t)1 << columns[tx_size], h = (size_t)1 << rows[tx_size];
    if (eob >= w * h) return w * h;
    /* column by column, as the list is */
    if (tx_type == TILG_H_DCT || tx_type == TILG_H_ADST || tx_type == TILG_H_FLIPADST) return eob;
    /* row by row: the last column ends after the rows that are complete */
    if (tx_type == TILG_V_DCT || tx_type == TILG_V_ADST || tx_type == TILG_V_FLIPADST)
        return eob < w ? (eob - 1) * h + 1 : (w - 1) * h + (eob >> columns[tx_size]);
    /* by diagonals: in each column from `first` to `last`, a diagonal has the row (diagonal - column) */
    size_t diagonal = 0, first = 0, last = 0, left = eob - 1, before = 0;
    while (left > last - first) {
        before = last * h + diagonal - last + 1;
        left -= last - first + 1;
        diagonal++;
        first = diagonal < h ? 0 : diagonal - h + 1;
        last = diagonal < w ? diagonal : w - 1;
    }
    /* a diagonal goes from its last column to its first in a high block, and the other way in a wide one; a square takes turns */
    const size_t column = w < h || (w == h && diagonal % 2) ? last : first + left, len = column * h + diagonal - column + 1;
    return len > before ? len : before;
}

#ifdef __cplusplus
}
#endif

#endif
