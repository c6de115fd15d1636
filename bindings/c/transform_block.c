/* Adds the residue of blocks to memory of its own, with no memory from the library, and sees that a refused call changes nothing. */
#include "tilgwaren.h"

#include <stdio.h>
#include <stdlib.h>
#include <string.h>

#define CHECK(e) do { if (!(e)) { fprintf(stderr, "%s:%d: %s\n", __FILE__, __LINE__, #e); exit(1); } } while (0)

enum { STRIDE = 80, ROWS = 70, ALL = STRIDE * ROWS };

/* Left as it comes: a call reads nothing that it hasn't written there. */
static tilg_context *context;

/* Whether the samples of a square are `inside`, and all others `outside`. */
static int is_square(const uint8_t *samples, size_t x, size_t y, size_t side, uint8_t inside, uint8_t outside) {
    for (size_t i = 0; i < ALL; i++) {
        size_t column = i % STRIDE, row = i / STRIDE;
        int in = x <= column && column < x + side && y <= row && row < y + side;
        if (samples[i] != (in ? inside : outside)) return 0;
    }
    return 1;
}

static void blocks_of_8_bits(void) {
    static uint8_t samples[ALL];
    int16_t dc[1024] = {100};
    memset(samples, 128, ALL);
    CHECK(tilg_inverse_transform_add_8(samples, ALL, STRIDE, 76, 66, context, dc, 16, TILG_TX_4X4, TILG_DCT_DCT) == TILG_DONE);
    CHECK(is_square(samples, 76, 66, 4, 131, 128));
    memset(samples, 250, ALL);
    dc[0] = 32767;
    CHECK(tilg_inverse_transform_add_8(samples, ALL, STRIDE, 3, 2, context, dc, 1024, TILG_TX_64X64, TILG_DCT_DCT) == TILG_DONE);
    CHECK(is_square(samples, 3, 2, 64, 255, 250));
}

/* Of a plane of ALL samples of 128: the call, and why it is refused. */
static const struct { size_t coefficients, samples, stride, x, y; uint8_t size, type; uint32_t status; } refused[] = {
    {16, ALL, STRIDE, 77, 0, TILG_TX_4X4, TILG_DCT_DCT, TILG_BAD_AREA},       {16, ALL, STRIDE, 0, 67, TILG_TX_4X4, TILG_DCT_DCT, TILG_BAD_AREA},
    {16, ALL, STRIDE, SIZE_MAX, 0, TILG_TX_4X4, TILG_DCT_DCT, TILG_BAD_AREA}, {16, ALL, SIZE_MAX, 0, 0, TILG_TX_4X4, TILG_DCT_DCT, TILG_BAD_AREA},
    {16, 0, 0, 0, 0, TILG_TX_4X4, TILG_DCT_DCT, TILG_BAD_AREA},               {0, ALL, STRIDE, 77, 0, TILG_TX_4X4, TILG_DCT_DCT, TILG_BAD_AREA},
    {16, ALL, STRIDE, 0, 0, 19, TILG_DCT_DCT, TILG_BAD_SIZE},            {16, ALL, STRIDE, 0, 0, TILG_TX_4X4, 17, TILG_BAD_TYPE},
    {1024, ALL, STRIDE, 0, 0, TILG_TX_64X64, TILG_ADST_DCT, TILG_BAD_TYPE},   {1024, ALL, STRIDE, 0, 0, TILG_TX_64X64, TILG_WHT_WHT, TILG_BAD_TYPE},
};

static void refused_blocks(void) {
    static uint8_t samples[ALL];
    int16_t dc[1024] = {100};
    memset(samples, 128, ALL);
    for (size_t i = 0; i < sizeof refused / sizeof refused[0]; i++)
        CHECK(tilg_inverse_transform_add_8(samples, refused[i].samples, refused[i].stride, refused[i].x, refused[i].y, context, dc,
                                          refused[i].coefficients, refused[i].size, refused[i].type) == refused[i].status);
    CHECK(is_square(samples, 0, 0, 0, 0, 128));
}

static void blocks_of_10_bits(void) {
    uint16_t samples[16], before[16];
    int32_t dc[16] = {100};
    for (int i = 0; i < 16; i++) samples[i] = before[i] = (uint16_t)(64 * i);
    CHECK(tilg_inverse_transform_add_16(samples, 16, 4, 0, 0, context, dc, 16, TILG_TX_4X4, TILG_DCT_DCT, 9) == TILG_BAD_DEPTH);
    dc[15] = 1 << 17;
    CHECK(tilg_inverse_transform_add_16(samples, 16, 4, 0, 0, context, dc, 16, TILG_TX_4X4, TILG_DCT_DCT, 10) == TILG_BAD_COEFFICIENT);
    CHECK(!memcmp(samples, before, sizeof samples));
    dc[15] = 0;
    CHECK(tilg_inverse_transform_add_16(samples, 16, 4, 0, 0, context, dc, 16, TILG_TX_4X4, TILG_DCT_DCT, 10) == TILG_DONE);
    for (int i = 0; i < 16; i++) CHECK(samples[i] == before[i] + 3);
}

/* Two blocks in which rav1e's rule differs from AV1's. */
static void blocks_by_both_rules(void) {
    uint16_t by_av1[16], by_rav1e[16];
    /* an identity along rows that passes 32 bits, at a depth of 12 */
    int32_t large[1] = {400000};
    memset(by_av1, 0, sizeof by_av1);
    memset(by_rav1e, 0, sizeof by_rav1e);
    CHECK(tilg_inverse_transform_add_16(by_av1, 16, 4, 0, 0, context, large, 1, TILG_TX_4X4, TILG_IDTX, 12) == TILG_DONE);
    CHECK(tilg_inverse_transform_add_rav1e_16(by_rav1e, 16, 4, 0, 0, context, large, 1, TILG_TX_4X4, TILG_IDTX, 12) == TILG_DONE);
    CHECK(by_av1[0] == 4095 && by_rav1e[0] == 0);
    /* a lossless block whose first rows come to more than 16 bits, at a depth of 10 */
    int32_t lossless[16];
    for (int i = 0; i < 16; i++) lossless[i] = i % 4 == 0 ? 131068 : i % 4 == 1 ? 131060 : 0, by_av1[i] = by_rav1e[i] = 512;
    CHECK(tilg_inverse_transform_add_16(by_av1, 16, 4, 0, 0, context, lossless, 16, TILG_TX_4X4, TILG_WHT_WHT, 10) == TILG_DONE);
    CHECK(tilg_inverse_transform_add_rav1e_16(by_rav1e, 16, 4, 0, 0, context, lossless, 16, TILG_TX_4X4, TILG_WHT_WHT, 10) == TILG_DONE);
    CHECK(by_av1[8] == 514 && by_rav1e[8] == 512);
}

/* How many coefficients the transform of each size has. */
static const unsigned numbers[] = {16, 64, 256, 1024, 1024, 32, 32, 128, 128, 512, 512, 1024, 1024, 64, 64, 256, 256, 512, 512};

/* Lists that end early: the same as with zeros behind them, in every size and at every length. */
static void short_lists(void) {
    static uint8_t samples[ALL], other[ALL];
    static int16_t given[1024], filled[1024];
    for (uint8_t size = 0; size < 19; size++)
        for (unsigned count = 0; count <= numbers[size]; count += 1 + count / 5) {
            for (size_t i = 0; i < ALL; i++) samples[i] = other[i] = (uint8_t)i;
            for (unsigned i = 0; i < 1024; i++) {
                given[i] = (int16_t)(i * 7919 % 4001 - 2000);
                filled[i] = i < count ? given[i] : 0;
            }
            CHECK(tilg_inverse_transform_add_8(samples, ALL, STRIDE, 5, 3, context, count ? given : NULL, count, size, TILG_DCT_DCT) == TILG_DONE);
            CHECK(tilg_inverse_transform_add_8(other, ALL, STRIDE, 5, 3, context, filled, 1024, size, TILG_DCT_DCT) == TILG_DONE);
            CHECK(!memcmp(samples, other, sizeof samples));
        }
}

int main(void) {
    context = malloc(sizeof *context);
    CHECK(context);
    blocks_of_8_bits();
    refused_blocks();
    short_lists();
    blocks_of_10_bits();
    blocks_by_both_rules();
    free(context);
    return 0;
}
