/* What tilgwaren_codec.h computes, all of it: sizes beside a list of their sides, angles beside the specification's, and for each size, type and
 * end of block the number of coefficients beside a walk along the specification's scan. It makes calls with numbers that don't exist. */
#include "tilgwaren_codec.h"

#include <stdio.h>
#include <stdlib.h>
#include <string.h>

#define CHECK(e) do { if (!(e)) { fprintf(stderr, "%s:%d: %s\n", __FILE__, __LINE__, #e); exit(1); } } while (0)

enum { TRANSFORMS = 19, BLOCKS = 22, TYPES = 17, MOST = 32 * 32 };

static const size_t transforms[TRANSFORMS][2] = {{4, 4}, {8, 8}, {16, 16}, {32, 32}, {64, 64}, {4, 8}, {8, 4}, {8, 16}, {16, 8}, {16, 32}, {32, 16},
    {32, 64}, {64, 32}, {4, 16}, {16, 4}, {8, 32}, {32, 8}, {16, 64}, {64, 16}};
static const size_t blocks[BLOCKS][2] = {{4, 4}, {4, 8}, {8, 4}, {8, 8}, {8, 16}, {16, 8}, {16, 16}, {16, 32}, {32, 16}, {32, 32}, {32, 64}, {64, 32},
    {64, 64}, {64, 128}, {128, 64}, {128, 128}, {4, 16}, {16, 4}, {8, 32}, {32, 8}, {16, 64}, {64, 16}};

/* The number of these sides in a list. */
static unsigned number_in(const size_t (*sides)[2], unsigned count, size_t width, size_t height) {
    for (unsigned i = 0; i < count; i++)
        if (sides[i][0] == width && sides[i][1] == height) return i;
    return TILG_NO_SIZE;
}

static void sizes(void) {
    for (size_t width = 0; width < 260; width++)
        for (size_t height = 0; height < 260; height++) {
            CHECK(tilg_tx_size_of(width, height) == number_in(transforms, TRANSFORMS, width, height));
            CHECK(tilg_block_size_of(width, height) == number_in(blocks, BLOCKS, width, height));
        }
    CHECK(tilg_tx_size_of(SIZE_MAX, 4) == TILG_NO_SIZE && tilg_block_size_of(4, SIZE_MAX) == TILG_NO_SIZE);
}

static void angles(void) {
    static const int of_modes[14] = {0, 90, 180, 45, 135, 113, 157, 203, 67, 0, 0, 0, 0, 0};
    unsigned found = 0;
    for (int mode = 0; mode < 14; mode++) {
        CHECK(tilg_mode_angle((uint8_t)mode) == of_modes[mode]);
        for (int step = -3; of_modes[mode] && step <= 3; step++) {
            tilg_turned_mode given = {(uint8_t)mode, (int8_t)step}, turned = tilg_mode_of_angle(of_modes[mode] + 3 * step);
            CHECK(turned.mode == mode && turned.angle_step == step && tilg_angle_of(given) == of_modes[mode] + 3 * step);
        }
    }
    for (int angle = -720; angle <= 720; angle++) {
        tilg_turned_mode turned = tilg_mode_of_angle(angle);
        CHECK(turned.angle_step == 127 || tilg_angle_of(turned) == angle);
        found += turned.angle_step != 127;
    }
    CHECK(found == 8 * 7);
}

/* Steps from a coefficient to the next one of the default scan. A square's scan turns at each side, and begins along the first row; a high one
 * goes down to the left along each diagonal, and a wide one up to the right. */
static void step(size_t w, size_t h, size_t *row, size_t *column) {
    size_t r = *row, c = *column;
    int is_down = w < h || (w == h && (r + c) % 2);
    if (is_down && c > 0 && r + 1 < h) {
        *row = r + 1, *column = c - 1;
    } else if (!is_down && r > 0 && c + 1 < w) {
        *row = r - 1, *column = c + 1;
    } else {
        size_t next = r + c + 1;
        int is_next_down = w < h || (w == h && next % 2);
        *row = is_next_down ? (next < w ? 0 : next - w + 1) : (next < h ? next : h - 1);
        *column = next - *row;
    }
}

/* The coefficients of a block in the order of the specification's scan, by their places in its tables: row by row. */
static void scan(size_t *places, size_t w, size_t h, unsigned type) {
    size_t row = 0, column = 0;
    for (size_t i = 0; i < w * h; i++) {
        if (type == TILG_V_DCT || type == TILG_V_ADST || type == TILG_V_FLIPADST) row = i / w, column = i % w;
        else if (type == TILG_H_DCT || type == TILG_H_ADST || type == TILG_H_FLIPADST) row = i % h, column = i / h;
        places[i] = row * w + column;
        step(w, h, &row, &column);
    }
}

/* Three tables of the specification. */
static const size_t default_scan_4x4[] = {0, 1, 4, 8, 5, 2, 3, 6, 9, 12, 13, 10, 7, 11, 14, 15};
static const size_t default_scan_4x8[] = {0, 1, 4, 2, 5, 8, 3, 6, 9, 12, 7, 10, 13, 16, 11, 14, 17, 20, 15, 18, 21, 24, 19, 22, 25, 28, 23, 26, 29, 27, 30, 31};
static const size_t default_scan_8x4[] = {0, 8, 1, 16, 9, 2, 24, 17, 10, 3, 25, 18, 11, 4, 26, 19, 12, 5, 27, 20, 13, 6, 28, 21, 14, 7, 29, 22, 15, 30, 23, 31};

static void scans(void) {
    size_t places[MOST];
    scan(places, 4, 4, TILG_IDTX);
    CHECK(!memcmp(places, default_scan_4x4, sizeof default_scan_4x4));
    scan(places, 4, 8, TILG_DCT_DCT);
    CHECK(!memcmp(places, default_scan_4x8, sizeof default_scan_4x8));
    scan(places, 8, 4, TILG_WHT_WHT);
    CHECK(!memcmp(places, default_scan_8x4, sizeof default_scan_8x4));
}

/* For each end of block, one more than the last place in the library's list, which is column by column. */
static unsigned ends_of_block(unsigned size, unsigned type) {
    size_t w = transforms[size][0] < 32 ? transforms[size][0] : 32, h = transforms[size][1] < 32 ? transforms[size][1] : 32, places[MOST], len = 0;
    unsigned char seen[MOST] = {0};
    scan(places, w, h, type);
    CHECK(tilg_coefficients_len((uint8_t)size, (uint8_t)type, 0) == 0);
    for (size_t eob = 1; eob <= w * h; eob++) {
        size_t place = places[eob - 1], in_list = place % w * h + place / w;
        CHECK(place < w * h && !seen[place]);
        seen[place] = 1;
        if (len < in_list + 1) len = in_list + 1;
        CHECK(tilg_coefficients_len((uint8_t)size, (uint8_t)type, eob) == len);
    }
    CHECK(len == w * h && tilg_coefficients_len((uint8_t)size, (uint8_t)type, SIZE_MAX) == len);
    return (unsigned)(w * h);
}

/* Numbers of sizes and steps that don't exist are rejected. */
static void rejected(void) {
    uint8_t samples[16] = {0}, side[8] = {0};
    tilg_turned_mode none = tilg_mode_of_angle(1);
    tilg_intra_block block = {none.mode, TILG_TX_4X4, none.angle_step, 8, 1, 1, 0, 0, 4, 4};
    CHECK(tilg_predict_intra_8(samples, 16, 4, 0, 0, &block, side, 8, 0, side, 8) == TILG_BAD_ANGLE);
    block.tx_size = tilg_tx_size_of(4, 12);
    CHECK(tilg_predict_intra_8(samples, 16, 4, 0, 0, &block, side, 8, 0, side, 8) == TILG_BAD_SIZE);
    CHECK(tilg_coefficients_len(TRANSFORMS, TILG_DCT_DCT, 1) == 0);
}

int main(void) {
    unsigned count = 0;
    sizes();
    angles();
    scans();
    for (unsigned size = 0; size < TRANSFORMS; size++)
        for (unsigned type = 0; type < TYPES; type++) count += ends_of_block(size, type);
    rejected();
    printf("each of %u ends of block\n", count);
    return 0;
}
