/* Predicts blocks by every intra mode in samples of its own, and calls as the header says not to. */
#include "tilgwaren.h"

#include <stdio.h>
#include <stdlib.h>

#define CHECK(e) do { if (!(e)) { fprintf(stderr, "%s:%d: %s\n", __FILE__, __LINE__, #e); exit(1); } } while (0)

enum { MODES = 13, SIZES = 19, LUMA = 13, BEFORE = 3, AFTER = 2 };

static const uint8_t widths[SIZES] = {4, 8, 16, 32, 64, 4, 8, 8, 16, 16, 32, 32, 64, 4, 16, 8, 32, 16, 64};
static const uint8_t heights[SIZES] = {4, 8, 16, 32, 64, 8, 4, 16, 8, 32, 16, 64, 32, 16, 4, 32, 8, 64, 16};
static const int angles[MODES] = {0, 90, 180, 45, 135, 113, 157, 203, 67, 0, 0, 0, 0};

/* Samples of `len`, no more, of this depth: whoever reads past them is told of. */
static uint16_t *some_samples(size_t len, unsigned depth) {
    static uint64_t state = 1;
    uint16_t *samples = malloc(len * sizeof *samples + (len == 0));
    CHECK(samples);
    for (size_t i = 0; i < len; i++) {
        state = state * 6364136223846793005u + 1442695040888963407u;
        samples[i] = (uint16_t)((state >> 33) % ((uint64_t)1 << depth));
    }
    return samples;
}

static uint8_t *bytes_of(const uint16_t *samples, size_t len) {
    uint8_t *bytes = malloc(len + (len == 0));
    CHECK(bytes);
    for (size_t i = 0; i < len; i++) bytes[i] = (uint8_t)samples[i];
    return bytes;
}

/* The mode by which a block is predicted: Paeth has fewer neighbours at a missing side. */
static unsigned effective(const tilg_intra_block *b) {
    if (b->mode != 12) return b->mode;
    return b->has_left ? (b->has_above ? 12 : 2) : (b->has_above ? 1 : 0);
}

static size_t places_left(const tilg_intra_block *b, unsigned mode) {
    size_t w = widths[b->tx_size], h = heights[b->tx_size];
    int p = angles[mode % MODES] + 3 * b->angle_step;
    if (mode == 0 || mode == LUMA) return b->has_left ? h : 0;
    return mode > 8 ? h : p <= 90 ? 0 : p <= 180 ? h : h + w;
}

static size_t places_above(const tilg_intra_block *b, unsigned mode) {
    size_t w = widths[b->tx_size], h = heights[b->tx_size];
    int p = angles[mode % MODES] + 3 * b->angle_step;
    if (mode == 0 || mode == LUMA) return b->has_above ? w : 0;
    return mode > 8 ? w : p < 90 ? w + h : p < 180 ? w : 0;
}

/* What a sample is by the modes that need no more than a line: -1 for others. */
static long expected(const tilg_intra_block *b, unsigned mode, const uint16_t *left, size_t left_len, const uint16_t *above, size_t r, size_t c) {
    size_t w = widths[b->tx_size], h = heights[b->tx_size];
    int p = angles[mode % MODES] + 3 * b->angle_step;
    if (mode == 0) {
        unsigned long sum = 0, count = 0;
        for (size_t i = 0; b->has_left && i < h; i++) sum += left[left_len - 1 - i], count++;
        for (size_t i = 0; b->has_above && i < w; i++) sum += above[i], count++;
        return count ? (long)((sum + count / 2) / count) : 1 << (b->bit_depth - 1);
    }
    if (mode <= 8 && p == 90) return above[c];
    if (mode <= 8 && p == 180) return left[left_len - 1 - r];
    return -1;
}

/* One block: what is predicted in bytes is what is predicted in samples of 16 bits, all within the depth, and all else stays. */
static void block(tilg_intra_block b) {
    unsigned mode = effective(&b), depth = b.bit_depth;
    size_t w = widths[b.tx_size], h = heights[b.tx_size], stride = BEFORE + w + AFTER, len = stride * (1 + h);
    size_t left_len = places_left(&b, mode), above_len = places_above(&b, mode);
    uint16_t *samples = some_samples(len, depth), *old = some_samples(len, depth);
    uint16_t *left = some_samples(left_len, depth), *above = some_samples(above_len, depth), *corner = some_samples(1, depth);
    for (size_t i = 0; i < len; i++) samples[i] = old[i];
    if (left_len)
        CHECK(tilg_predict_intra_16(samples, len, stride, BEFORE, 1, &b, left, left_len - 1, *corner, above, above_len) == TILG_TOO_SHORT);
    if (above_len)
        CHECK(tilg_predict_intra_16(samples, len, stride, BEFORE, 1, &b, left, left_len, *corner, above, above_len - 1) == TILG_TOO_SHORT);
    CHECK(tilg_predict_intra_16(samples, len - 1, stride, BEFORE, 1, &b, left, left_len, *corner, above, above_len) == TILG_BAD_AREA);
    for (size_t i = 0; i < len; i++) CHECK(samples[i] == old[i]);
    CHECK(tilg_predict_intra_16(samples, len, stride, BEFORE, 1, &b, left, left_len, *corner, above, above_len) == TILG_DONE);
    for (size_t i = 0; i < len; i++) {
        size_t y = i / stride, x = i % stride;
        if (y < 1 || x < BEFORE || x >= BEFORE + w) {
            CHECK(samples[i] == old[i]);
        } else {
            long is = expected(&b, mode, left, left_len, above, y - 1, x - BEFORE);
            CHECK(samples[i] >> depth == 0 && (is < 0 || samples[i] == is));
        }
    }
    if (depth == 8) {
        uint8_t *bytes = bytes_of(old, len), *left_bytes = bytes_of(left, left_len), *above_bytes = bytes_of(above, above_len);
        CHECK(tilg_predict_intra_8(bytes, len, stride, BEFORE, 1, &b, left_bytes, left_len, (uint8_t)*corner, above_bytes, above_len) == TILG_DONE);
        for (size_t i = 0; i < len; i++) CHECK(bytes[i] == samples[i]);
        free(bytes), free(left_bytes), free(above_bytes);
    }
    free(samples), free(old), free(left), free(above), free(corner);
}

/* Chroma from luma, against its definition. */
static void from_luma(tilg_intra_block b, int16_t alpha) {
    unsigned depth = b.bit_depth;
    size_t w = widths[b.tx_size], h = heights[b.tx_size], len = w * h, left_len = places_left(&b, LUMA), above_len = places_above(&b, LUMA);
    uint16_t *samples = some_samples(len, depth), *left = some_samples(left_len, depth), *above = some_samples(above_len, depth);
    uint16_t *luma = some_samples(len, depth);
    int16_t *ac = malloc(len * sizeof *ac);
    CHECK(ac);
    for (size_t i = 0; i < len; i++) ac[i] = (int16_t)(8 * ((int)luma[i] - (1 << (depth - 1))));
    CHECK(tilg_predict_cfl_16(samples, len, w, 0, 0, &b, left, left_len, above, above_len, ac, len - 1, alpha) == TILG_TOO_SHORT);
    CHECK(tilg_predict_cfl_16(samples, len, w, 0, 0, &b, left, left_len, above, above_len, ac, len, alpha) == TILG_DONE);
    for (size_t i = 0; i < len; i++) {
        long product = (long)alpha * ac[i], size = (labs(product) + 32) / 64, most = (1L << depth) - 1;
        long is = expected(&b, 0, left, left_len, above, 0, 0) + (product < 0 ? -size : size);
        CHECK(samples[i] == (is < 0 ? 0 : is > most ? most : is));
    }
    free(samples), free(left), free(above), free(luma), free(ac);
}

static void refusals(tilg_intra_block b) {
    uint8_t samples[16] = {0}, side[8] = {0};
    tilg_intra_block other = b;
    other.mode = LUMA;
    CHECK(tilg_predict_intra_8(samples, 16, 4, 0, 0, &other, side, 8, 0, side, 8) == TILG_BAD_MODE);
    other = b, other.tx_size = SIZES;
    CHECK(tilg_predict_intra_8(samples, 16, 4, 0, 0, &other, side, 8, 0, side, 8) == TILG_BAD_SIZE);
    other = b, other.angle_step = -1;
    CHECK(tilg_predict_intra_8(samples, 16, 4, 0, 0, &other, side, 8, 0, side, 8) == TILG_BAD_ANGLE);
    other = b, other.mode = 1, other.angle_step = 4;
    CHECK(tilg_predict_intra_8(samples, 16, 4, 0, 0, &other, side, 8, 0, side, 8) == TILG_BAD_ANGLE);
    other = b, other.bit_depth = 10;
    CHECK(tilg_predict_intra_8(samples, 16, 4, 0, 0, &other, side, 8, 0, side, 8) == TILG_BAD_DEPTH);
    CHECK(tilg_predict_intra_8(samples, 16, 0, 0, 0, &b, side, 8, 0, side, 8) == TILG_BAD_AREA);
    CHECK(tilg_predict_intra_8(samples, 16, 4, 1, 0, &b, side, 8, 0, side, 8) == TILG_BAD_AREA);
    CHECK(tilg_predict_intra_8(samples, 16, 4, 0, SIZE_MAX, &b, side, 8, 0, side, 8) == TILG_BAD_AREA);
    CHECK(tilg_predict_intra_8(samples, 16, SIZE_MAX, SIZE_MAX, 0, &b, side, 8, 0, side, 8) == TILG_BAD_AREA);
    CHECK(tilg_predict_intra_8(NULL, 0, 4, 0, 0, &b, side, 8, 0, side, 8) == TILG_BAD_AREA);
    CHECK(tilg_predict_intra_8(samples, 16, 4, 0, 0, &b, NULL, 0, 0, NULL, 0) == TILG_TOO_SHORT);
}

/* A block of 4x4 in the middle of a plane of 12x12, predicted straight down from the edge that is prepared there: by two calls, and by one. */
static void from_its_plane(void) {
    uint8_t samples[144], other[144], edge[TILG_EDGE_SAMPLES];
    tilg_edge_plane plane = {.stride = 12, .width = 12, .height = 12, .tile_width = 12, .tile_height = 12};
    tilg_edge_block at = {.x = 4, .y = 4, .cell_x = 1, .cell_y = 1, .mode = 1, .bit_depth = 8};
    tilg_intra_block b = {.mode = 1, .bit_depth = 8, .has_left = 1, .has_above = 1};
    for (size_t i = 0; i < 144; i++) samples[i] = other[i] = (uint8_t)i;
    CHECK(tilg_intra_edge_8(edge, sizeof edge - 1, samples, 144, &plane, &at) == TILG_ROOM_TOO_SMALL);
    CHECK(tilg_intra_edge_8(edge, sizeof edge, samples, 143, &plane, &at) == TILG_BAD_AREA);
    CHECK(tilg_intra_edge_8(edge, sizeof edge, samples, 144, &plane, &at) == TILG_DONE);
    CHECK(tilg_predict_intra_8(samples, 144, 12, 4, 4, &b, edge, 128, edge[128], edge + 129, 128) == TILG_DONE);
    for (size_t i = 0; i < 144; i++) {
        size_t y = i / 12, x = i % 12;
        CHECK(samples[i] == (x >= 4 && x < 8 && y >= 4 && y < 8 ? 36 + x : i));
    }
    CHECK(tilg_predict_in_plane_8(other, 143, &plane, &at, 0, NULL, 0, 0) == TILG_BAD_AREA);
    CHECK(tilg_predict_in_plane_8(other, 144, &plane, &at, 0, NULL, 0, 0) == TILG_DONE);
    for (size_t i = 0; i < 144; i++) CHECK(other[i] == samples[i]);
}

/* Chroma of 4x4 from luma in the middle of a plane of one value: without a weight all stays as it is. */
static void from_luma_in_its_plane(void) {
    uint16_t samples[144];
    int16_t ac[16];
    tilg_edge_plane plane = {.stride = 12, .width = 12, .height = 12, .tile_width = 12, .tile_height = 12};
    tilg_edge_block at = {.x = 4, .y = 4, .cell_x = 1, .cell_y = 1, .mode = TILG_UV_CFL_PRED, .bit_depth = 10};
    for (size_t i = 0; i < 144; i++) samples[i] = 500;
    for (size_t i = 0; i < 16; i++) ac[i] = 64;
    CHECK(tilg_predict_in_plane_16(samples, 144, &plane, &at, 0, ac, 15, 8) == TILG_TOO_SHORT);
    CHECK(tilg_predict_in_plane_16(samples, 144, &plane, &at, 0, ac, 16, 0) == TILG_DONE);
    for (size_t i = 0; i < 144; i++) CHECK(samples[i] == 500);
    CHECK(tilg_predict_in_plane_16(samples, 144, &plane, &at, 0, ac, 16, 8) == TILG_DONE);
    for (size_t i = 0; i < 144; i++) {
        size_t y = i / 12, x = i % 12;
        CHECK(samples[i] == (x >= 4 && x < 8 && y >= 4 && y < 8 ? 508 : 500));
    }
    at.mode = TILG_ANY_MODE;
    CHECK(tilg_predict_in_plane_16(samples, 144, &plane, &at, 0, ac, 16, 8) == TILG_BAD_MODE);
}

int main(void) {
    unsigned long count = 0;
    for (unsigned depth = 8; depth <= 12; depth += 2)
        for (unsigned size = 0; size < SIZES; size++)
            for (unsigned sides = 0; sides < 4; sides++) {
                tilg_intra_block b = {0, (uint8_t)size, 0, (uint8_t)depth, sides & 1, sides >> 1, 0, 0, widths[size], heights[size]};
                for (unsigned mode = 0; mode < MODES; mode++)
                    for (int step = mode >= 1 && mode <= 8 ? -3 : 0; step <= (mode >= 1 && mode <= 8 ? 3 : 0); step++)
                        for (unsigned filter = 0; filter < 3; filter++) {
                            b.mode = (uint8_t)mode, b.angle_step = (int8_t)step;
                            b.edge_filter = filter > 0, b.smooth_neighbour = filter > 1;
                            b.visible_columns = filter ? widths[size] / filter : 0, b.visible_rows = heights[size];
                            block(b), count++;
                        }
                b.angle_step = 0;
                for (int alpha = -16; alpha <= 16; alpha += 4) from_luma(b, (int16_t)alpha), count++;
            }
    from_its_plane();
    from_luma_in_its_plane();
    refusals((tilg_intra_block){0, 0, 0, 8, 1, 1, 0, 0, 4, 4});
    printf("each of %lu blocks\n", count);
    return 0;
}
