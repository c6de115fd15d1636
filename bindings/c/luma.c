/* The differences of luma from its mean: by the library, beside the formula of the AV1 specification, in memory that is no longer than it is
 * read, and calls as the header says not to. */
#include "tilgwaren.h"

#include <stdio.h>
#include <stdlib.h>
#include <string.h>

#define CHECK(e) do { if (!(e)) { fprintf(stderr, "%s:%d: %s\n", __FILE__, __LINE__, #e); exit(1); } } while (0)

enum { SIZES = 22, X = 3, Y = 2, MOST = 32 * 32, UNTOUCHED = 77 };

static const size_t widths[SIZES] = {4, 4, 8, 8, 8, 16, 16, 16, 32, 32, 32, 64, 64, 64, 128, 128, 4, 16, 8, 32, 16, 64};
static const size_t heights[SIZES] = {4, 8, 4, 8, 16, 8, 16, 32, 16, 32, 64, 32, 64, 128, 64, 128, 16, 4, 32, 8, 64, 16};

static size_t least(size_t a, size_t b) { return a < b ? a : b; }
static size_t greatest(size_t a, size_t b) { return a < b ? b : a; }

/* How much of a side is read. */
static size_t side_read(size_t side, size_t pad, unsigned dec) {
    return least(side << dec, greatest((side - 4 * pad) << dec, 8));
}

/* So many samples of this depth, and not one more: whoever reads past them is told of. */
static uint16_t *some_samples(size_t len, unsigned depth) {
    static uint64_t state = 1;
    uint16_t *samples = malloc(len * sizeof *samples);
    CHECK(samples);
    for (size_t i = 0; i < len; i++) {
        state = state * 6364136223846793005u + 1442695040888963407u;
        samples[i] = (uint16_t)((state >> 33) % ((uint64_t)1 << depth));
    }
    return samples;
}

static uint8_t *bytes_of(const uint16_t *samples, size_t len) {
    uint8_t *bytes = malloc(len);
    CHECK(bytes);
    for (size_t i = 0; i < len; i++) bytes[i] = (uint8_t)samples[i];
    return bytes;
}

/* The differences by the formula. */
static void expect(int16_t *ac, const uint16_t *luma, size_t stride, const tilg_cfl_block *b) {
    size_t w = widths[b->block_size], h = heights[b->block_size], sum = 0;
    size_t last_x = side_read(w, b->w_pad, b->halved_columns) - ((size_t)1 << b->halved_columns), last_y = side_read(h, b->h_pad, b->halved_rows) - ((size_t)1 << b->halved_rows);
    for (size_t r = 0; r < h; r++)
        for (size_t c = 0; c < w; c++) {
            size_t x = least(c << b->halved_columns, last_x), y = least(r << b->halved_rows, last_y), covered = 0;
            for (size_t v = 0; v <= b->halved_rows; v++)
                for (size_t u = 0; u <= b->halved_columns; u++) covered += luma[(Y + y + v) * stride + X + x + u];
            covered <<= 3 - b->halved_columns - b->halved_rows;
            ac[r * w + c] = (int16_t)covered;
            sum += covered;
        }
    for (size_t i = 0; i < w * h; i++) ac[i] = (int16_t)(ac[i] - (int16_t)((sum + w * h / 2) / (w * h)));
}

/* A block at this depth, in 16 bits and at a depth of 8 also in 8. */
static void give(const tilg_cfl_block *b, unsigned depth) {
    size_t w = widths[b->block_size], h = heights[b->block_size], stride = X + (w << b->halved_columns);
    size_t len = (Y + side_read(h, b->h_pad, b->halved_rows)) * stride;
    uint16_t *luma = some_samples(len, depth);
    uint8_t *bytes = bytes_of(luma, len);
    int16_t expected[MOST], *ac = malloc(w * h * sizeof *ac);
    CHECK(ac);
    expect(expected, luma, stride, b);
    CHECK(tilg_cfl_ac_tested_16(ac, w * h, luma, len, stride, X, Y, b) == TILG_DONE);
    CHECK(!memcmp(ac, expected, w * h * sizeof *ac));
    if (depth == 8) {
        memset(ac, 0, w * h * sizeof *ac);
        CHECK(tilg_cfl_ac_8(ac, w * h, bytes, len, stride, X, Y, b) == TILG_DONE);
        CHECK(!memcmp(ac, expected, w * h * sizeof *ac));
    }
    CHECK(tilg_cfl_ac_8(ac, w * h - 1, bytes, len, stride, X, Y, b) == TILG_TOO_SHORT);
    CHECK(tilg_cfl_ac_8(ac, w * h, bytes, len - 1, stride, X, Y, b) == TILG_BAD_AREA);
    free(luma);
    free(bytes);
    free(ac);
}

static unsigned blocks(void) {
    unsigned count = 0;
    for (uint8_t size = 0; size < SIZES; size++)
        for (uint8_t xdec = 0; xdec < 2 && greatest(widths[size], heights[size]) <= 32; xdec++)
            for (uint8_t ydec = 0; ydec <= xdec; ydec++)
                for (size_t w_pad = 0; 4 * w_pad < widths[size]; w_pad++)
                    for (size_t h_pad = 0; 4 * h_pad < heights[size]; h_pad++)
                        for (unsigned depth = 8; depth <= 12; depth += 2) {
                            tilg_cfl_block block = {size, xdec, ydec, w_pad, h_pad};
                            give(&block, depth);
                            count++;
                        }
    return count;
}

/* A call that is refused, and writes nothing. */
static void refuse(uint32_t status, tilg_cfl_block block, size_t stride, size_t x, size_t y) {
    uint16_t luma[256] = {0};
    int16_t ac[64];
    for (size_t i = 0; i < 64; i++) ac[i] = UNTOUCHED;
    CHECK(tilg_cfl_ac_tested_16(ac, 64, luma, 256, stride, x, y, &block) == status);
    for (size_t i = 0; i < 64; i++) CHECK(ac[i] == UNTOUCHED);
}

/* The pad of a side: what stands behind the transforms that begin in the visible luma, in units of 4 samples of chroma. */
static size_t pad_of(size_t side, size_t tx, size_t visible, unsigned dec) {
    size_t coded = 0;
    while (coded < side && (side <= 8 || coded < visible)) coded += tx;
    return coded < side ? ((side - coded) >> dec) / 4 : 0;
}

/* The number of a size. */
static uint8_t size_of(size_t w, size_t h) {
    uint8_t size = 0;
    while (widths[size] != w || heights[size] != h) CHECK(++size < SIZES);
    return size;
}

/* The chroma of blocks of every size, with transforms of every size, of which so much is visible. */
static unsigned chroma(void) {
    static const size_t tx_widths[] = {4, 8, 16, 32, 64, 4, 8, 8, 16, 16, 32, 32, 64, 4, 16, 8, 32, 16, 64};
    static const size_t tx_heights[] = {4, 8, 16, 32, 64, 8, 4, 16, 8, 32, 16, 64, 32, 16, 4, 32, 8, 64, 16};
    unsigned count = 0;
    for (uint8_t size = 0; size < SIZES; size++)
        for (uint8_t tx = 0; tx < 19; tx++)
            for (uint8_t sampling = 0; sampling < 3; sampling++)
                for (size_t seen = 0; seen <= 68; seen += 4) {
                    uint8_t xdec = sampling > 0, ydec = sampling > 1;
                    tilg_luma_block of = {size, tx, xdec, ydec, seen, 72 - seen};
                    size_t w = greatest(widths[size] >> xdec, 4), h = greatest(heights[size] >> ydec, 4);
                    tilg_cfl_block block = {99, 98, 97, 96, 95};
                    uint32_t status = tilg_cfl_block_of(&block, &of);
                    int has_none = greatest(w, h) > 32 || (xdec && !ydec && heights[size] > widths[size]);
                    if (has_none || seen == 0) {
                        CHECK(status == (has_none ? TILG_BAD_SIZE : TILG_BAD_PAD));
                        CHECK(block.block_size == 99 && block.halved_columns == 98 && block.halved_rows == 97 && block.w_pad == 96 && block.h_pad == 95);
                        continue;
                    }
                    CHECK(status == TILG_DONE && block.block_size == size_of(w, h) && block.halved_columns == xdec && block.halved_rows == ydec);
                    CHECK(block.w_pad == pad_of(widths[size], tx_widths[tx], seen, xdec));
                    CHECK(block.h_pad == pad_of(heights[size], tx_heights[tx], 72 - seen, ydec));
                    count++;
                }
    tilg_cfl_block block;
    CHECK(tilg_cfl_block_of(&block, &(tilg_luma_block){SIZES, 0, 1, 1, 8, 8}) == TILG_BAD_SIZE);
    CHECK(tilg_cfl_block_of(&block, &(tilg_luma_block){3, 19, 1, 1, 8, 8}) == TILG_BAD_SIZE);
    CHECK(tilg_cfl_block_of(&block, &(tilg_luma_block){SIZES, 0, 0, 1, 8, 8}) == TILG_BAD_SAMPLING);
    CHECK(tilg_cfl_block_of(&block, &(tilg_luma_block){9, 0, 1, 1, SIZE_MAX, SIZE_MAX}) == TILG_DONE && block.w_pad == 0 && block.h_pad == 0);
    return count;
}

int main(void) {
    tilg_cfl_block plain = {3, 1, 1, 0, 0};
    for (unsigned size = 0; size < 256; size++) {
        tilg_cfl_block block = {(uint8_t)size, 1, 1, 0, 0};
        if (size >= SIZES || greatest(widths[size], heights[size]) > 32) refuse(TILG_BAD_SIZE, block, 16, 0, 0);
    }
    for (unsigned decs = 0; decs < 65536; decs++) {
        tilg_cfl_block block = {3, (uint8_t)decs, (uint8_t)(decs >> 8), 0, 0};
        if (decs != 0 && decs != 1 && decs != 257) refuse(TILG_BAD_SAMPLING, block, 16, 0, 0);
    }
    refuse(TILG_BAD_PAD, (tilg_cfl_block){3, 1, 1, 2, 0}, 16, 0, 0);
    refuse(TILG_BAD_PAD, (tilg_cfl_block){3, 1, 1, 0, SIZE_MAX}, 16, 0, 0);
    refuse(TILG_BAD_PAD, (tilg_cfl_block){3, 1, 1, (size_t)1 << 62, 0}, 16, 0, 0);
    refuse(TILG_BAD_AREA, plain, 0, 0, 0);
    refuse(TILG_BAD_AREA, plain, 16, 1, 0);
    refuse(TILG_BAD_AREA, plain, 16, SIZE_MAX, 0);
    refuse(TILG_BAD_AREA, plain, 16, 0, SIZE_MAX - 15);
    refuse(TILG_BAD_AREA, plain, SIZE_MAX, 0, 0);
    refuse(TILG_TOO_SHORT, (tilg_cfl_block){6, 0, 0, 0, 0}, 16, 0, 0);
    printf("of %u blocks each has its chroma, ", chroma());
    printf("of %u blocks each has its differences\n", blocks());
    return 0;
}
