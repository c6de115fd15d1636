/* Predicts blocks from references in memory of its own, with no memory from the library, and sees that a refused call changes nothing. */
#include "tilgwaren.h"

#include <stdio.h>
#include <stdlib.h>
#include <string.h>

#define CHECK(e) do { if (!(e)) { fprintf(stderr, "%s:%d: %s\n", __FILE__, __LINE__, #e); exit(1); } } while (0)

enum { STRIDE = 12, ROWS = 12, ALL = STRIDE * ROWS, ROOM = 64 };

/* Whether all are one number. */
static int are_all_8(const uint8_t *samples, size_t count, uint8_t number) {
    for (size_t i = 0; i < count; i++)
        if (samples[i] != number) return 0;
    return 1;
}

static int are_all_16(const int16_t *values, size_t count, int16_t number) {
    for (size_t i = 0; i < count; i++)
        if (values[i] != number) return 0;
    return 1;
}

static void moved_blocks(void) {
    tilg_motion_block still = {4, 2, 0, 0, TILG_FILTER_SHARP, TILG_FILTER_BILINEAR}, half = {4, 2, 8, 0, TILG_FILTER_BILINEAR, TILG_FILTER_REGULAR};
    uint8_t reference[ALL], samples[ROOM];
    for (size_t i = 0; i < ALL; i++) reference[i] = (uint8_t)(20 * (i % STRIDE) + i / STRIDE);
    memset(samples, 255, ROOM);
    CHECK(tilg_put_8tap_8(samples, ROOM, 8, 4, 6, reference, ALL, STRIDE, 3, 4, &still) == TILG_DONE);
    CHECK(are_all_8(samples, 6 * 8 + 4, 255) && are_all_8(samples + 7 * 8, 4, 255));
    for (size_t c = 0; c < 4; c++) CHECK(samples[6 * 8 + 4 + c] == 20 * (3 + c) + 4 && samples[7 * 8 + 4 + c] == 20 * (3 + c) + 5);
    CHECK(tilg_put_8tap_8(samples, ROOM, 8, 4, 6, reference, ALL, STRIDE, 3, 4, &half) == TILG_DONE);
    for (size_t c = 0; c < 4; c++) CHECK(samples[6 * 8 + 4 + c] == 20 * (3 + c) + 14 && samples[7 * 8 + 4 + c] == 20 * (3 + c) + 15);
}

/* A block of 4x1 half a sample to the right, by a filter along rows, of a reference that is 100 from the block's third column on and 0 before. */
static int along_a_short_side(uint8_t filter, size_t column) {
    tilg_motion_block block = {4, 1, 8, 0, filter, TILG_FILTER_REGULAR};
    uint8_t reference[ALL], samples[4];
    for (size_t i = 0; i < ALL; i++) reference[i] = i % STRIDE < 5 ? 0 : 100;
    CHECK(tilg_put_8tap_8(samples, 4, 4, 0, 0, reference, ALL, STRIDE, 3, 3, &block) == TILG_DONE);
    return samples[column];
}

/* Along short sides the sharp filter is the regular one, and rav1e's the smooth one. */
static void sharp_blocks(void) {
    for (size_t column = 0; column < 4; column++) {
        CHECK(along_a_short_side(TILG_FILTER_SHARP, column) == along_a_short_side(TILG_FILTER_REGULAR, column));
        CHECK(along_a_short_side(TILG_FILTER_RAV1E_SHARP, column) == along_a_short_side(TILG_FILTER_SMOOTH, column));
    }
    CHECK(along_a_short_side(TILG_FILTER_SHARP, 0) == 0 && along_a_short_side(TILG_FILTER_RAV1E_SHARP, 0) == 9);
}

/* Where a vector leads along one dimension of a padded plane: no further out than the padding. */
static size_t place(int vector, int at, int length, int visible, int padding) {
    int whole = (16 * at + 2 * vector) >> 4, least = -length - 4, most = visible + 3;
    return (size_t)(padding + (whole < least ? least : whole > most ? most : whole));
}

/* A block that a vector moves past the sides of a plane without pads, beside one that is read from pads. */
static void blocks_without_pads(void) {
    enum { WIDE = 6, HIGH = 5, PAD = 11, ROW = WIDE + 2 * PAD };
    static tilg_context context;
    uint8_t bare[WIDE * HIGH], padded[ROW * (HIGH + 2 * PAD)], one[8], other[8];
    int16_t values[8], others[8];
    for (size_t i = 0; i < WIDE * HIGH; i++) bare[i] = (uint8_t)(i * 53);
    for (size_t y = 0; y < HIGH + 2 * PAD; y++)
        for (size_t x = 0; x < ROW; x++) {
            size_t c = x < PAD ? 0 : x - PAD < WIDE ? x - PAD : WIDE - 1, r = y < PAD ? 0 : y - PAD < HIGH ? y - PAD : HIGH - 1;
            padded[y * ROW + x] = bare[r * WIDE + c];
        }
    for (int16_t vector = -90; vector <= 90; vector++) {
        tilg_motion_plane plane = {.stride = WIDE, .width = WIDE, .height = HIGH};
        tilg_moved_block block = {1, 2, 4, 2, vector, (int16_t)(-7 * vector), TILG_FILTER_SHARP, TILG_FILTER_SMOOTH};
        size_t x = place(block.mv_x, 1, 4, WIDE, PAD), y = place(block.mv_y, 2, 2, HIGH, PAD);
        tilg_motion_block moved = {4, 2, (uint8_t)(2 * block.mv_x & 15), (uint8_t)(2 * block.mv_y & 15), TILG_FILTER_SHARP, TILG_FILTER_SMOOTH};
        CHECK(tilg_put_8tap_8(one, 8, 4, 0, 0, padded, sizeof padded, ROW, x, y, &moved) == TILG_DONE);
        CHECK(tilg_put_moved_8(other, 8, 4, 0, 0, &context, bare, sizeof bare, &plane, &block) == TILG_DONE);
        CHECK(memcmp(one, other, 8) == 0);
        CHECK(tilg_prep_8tap_8(values, 8, padded, sizeof padded, ROW, x, y, &moved) == TILG_DONE);
        CHECK(tilg_prep_moved_8(others, 8, &context, bare, sizeof bare, &plane, &block) == TILG_DONE);
        CHECK(memcmp(values, others, sizeof values) == 0);
        CHECK(tilg_prep_moved_8(others, 7, &context, bare, sizeof bare, &plane, &block) == TILG_TOO_SHORT);
        CHECK(tilg_put_moved_8(other, 8, 4, 0, 0, &context, bare, sizeof bare - 1, &plane, &block) == TILG_BAD_AREA);
    }
}

static void averaged_blocks(void) {
    tilg_motion_block block = {4, 2, 5, 9, TILG_FILTER_SMOOTH, TILG_FILTER_SHARP};
    uint8_t reference[ALL], samples[8];
    int16_t dark[9] = {0}, light[8];
    memset(reference, 100, ALL);
    CHECK(tilg_prep_8tap_8(dark, 9, reference, ALL, STRIDE, 3, 3, &block) == TILG_DONE);
    CHECK(are_all_16(dark, 8, 1600) && dark[8] == 0);
    memset(reference, 201, ALL);
    CHECK(tilg_prep_8tap_8(light, 8, reference, ALL, STRIDE, 4, 6, &block) == TILG_DONE);
    CHECK(tilg_mc_avg_8(samples, 8, 4, 0, 0, 4, 2, dark, 9, light, 8) == TILG_DONE);
    CHECK(are_all_8(samples, 8, 151));
    CHECK(tilg_mc_avg_8(samples, 8, 4, 0, 0, 4, 2, dark, 9, light, 7) == TILG_TOO_SHORT);
    CHECK(tilg_mc_avg_8(samples, 8, 4, 0, 1, 4, 2, dark, 9, light, 8) == TILG_BAD_AREA);
    CHECK(tilg_mc_avg_8(samples, 8, 4, 0, 0, 4, 0, dark, 9, light, 8) == TILG_BAD_SIZE);
    CHECK(are_all_8(samples, 8, 151));
}

/* Of a reference of ALL samples: the call, and why it is refused. */
static const struct { size_t room, dst_stride, dst_x, dst_y, src_len, src_stride, src_x, src_y; tilg_motion_block block; uint32_t status; } refused[] = {
    {ROOM, 8, 5, 0, ALL, STRIDE, 4, 4, {4, 2, 0, 0, 0, 0}, TILG_BAD_AREA},    {ROOM, 8, 0, 7, ALL, STRIDE, 4, 4, {4, 2, 0, 0, 0, 0}, TILG_BAD_AREA},
    {0, 0, 0, 0, ALL, STRIDE, 4, 4, {4, 2, 0, 0, 0, 0}, TILG_BAD_AREA},       {ROOM, 8, 0, 0, ALL, STRIDE, 2, 4, {4, 2, 8, 0, 0, 0}, TILG_BAD_AREA},
    {ROOM, 8, 0, 0, ALL, STRIDE, 5, 4, {4, 2, 8, 0, 0, 0}, TILG_BAD_AREA},    {ROOM, 8, 0, 0, ALL, STRIDE, 4, 2, {4, 2, 0, 8, 0, 0}, TILG_BAD_AREA},
    {ROOM, 8, 0, 0, ALL, STRIDE, 4, SIZE_MAX, {4, 2, 0, 0, 0, 0}, TILG_BAD_AREA}, {ROOM, 8, 0, 0, ALL, SIZE_MAX, 4, 4, {4, 2, 0, 0, 0, 0}, TILG_BAD_AREA},
    {ROOM, 8, 0, 0, 119, STRIDE, 4, 4, {4, 2, 8, 8, 0, 0}, TILG_BAD_AREA},
    {ROOM, 8, 0, 0, ALL, STRIDE, 4, 4, {0, 2, 0, 0, 0, 0}, TILG_BAD_SIZE},    {ROOM, 8, 0, 0, ALL, STRIDE, 4, 4, {4, 129, 0, 0, 0, 0}, TILG_BAD_SIZE},
    {ROOM, 8, 0, 0, ALL, STRIDE, 4, 4, {4, 2, 16, 0, 0, 0}, TILG_BAD_FRACTION}, {ROOM, 8, 0, 0, ALL, STRIDE, 4, 4, {4, 2, 0, 0, 0, 4}, TILG_BAD_MODE},
    {ROOM, 8, 0, 0, ALL, STRIDE, 4, 4, {4, 2, 0, 0, 6, 0}, TILG_BAD_MODE},
};

static void refused_blocks(void) {
    uint8_t reference[ALL], samples[ROOM];
    memset(reference, 100, ALL);
    memset(samples, 7, ROOM);
    for (size_t i = 0; i < sizeof refused / sizeof refused[0]; i++)
        CHECK(tilg_put_8tap_8(samples, refused[i].room, refused[i].dst_stride, refused[i].dst_x, refused[i].dst_y, reference, refused[i].src_len,
                             refused[i].src_stride, refused[i].src_x, refused[i].src_y, &refused[i].block) == refused[i].status);
    CHECK(are_all_8(samples, ROOM, 7));
}

/* A block of 4x2 of a plane that ends with the last sample that is read: a sample less is refused. */
static void from_a_plane_of(size_t len, size_t stride, size_t x, size_t y, uint8_t fraction_x, uint8_t fraction_y) {
    tilg_motion_block block = {4, 2, fraction_x, fraction_y, TILG_FILTER_SHARP, TILG_FILTER_SMOOTH};
    uint8_t *reference = malloc(len), samples[8];
    int16_t values[8];
    CHECK(reference);
    memset(reference, 100, len);
    memset(samples, 0, sizeof samples), memset(values, 0, sizeof values);
    CHECK(tilg_put_8tap_8(samples, 8, 4, 0, 0, reference, len - 1, stride, x, y, &block) == TILG_BAD_AREA);
    CHECK(tilg_prep_8tap_8(values, 8, reference, len - 1, stride, x, y, &block) == TILG_BAD_AREA);
    CHECK(are_all_8(samples, 8, 0) && are_all_16(values, 8, 0));
    CHECK(tilg_put_8tap_8(samples, 8, 4, 0, 0, reference, len, stride, x, y, &block) == TILG_DONE);
    CHECK(tilg_prep_8tap_8(values, 8, reference, len, stride, x, y, &block) == TILG_DONE);
    CHECK(are_all_8(samples, 8, 100) && are_all_16(values, 8, 1600));
    free(reference);
}

/* A call reads beside the block only along a dimension with a fraction, and nothing after the last sample. */
static void planes_that_end_with_the_block(void) {
    from_a_plane_of(4 * 2, 4, 0, 0, 0, 0);
    from_a_plane_of(7 + 4, 7, 0, 0, 0, 0);
    from_a_plane_of(2 * 12 + 1 + 4, 12, 1, 1, 0, 0);
    from_a_plane_of(11 * 2, 11, 3, 0, 8, 0);
    from_a_plane_of(4 * 9, 4, 0, 3, 0, 8);
    from_a_plane_of(8 * 13 + 11, 13, 3, 3, 8, 8);
}

static void blocks_of_16_bits(void) {
    tilg_motion_block block = {4, 2, 5, 9, TILG_FILTER_SHARP, TILG_FILTER_SMOOTH};
    uint16_t reference[ALL], samples[8] = {0};
    int16_t values[8] = {0};
    for (size_t i = 0; i < ALL; i++) reference[i] = 500;
    reference[ALL - 1] = 1024;
    CHECK(tilg_test_samples_16(reference, ALL, STRIDE, 0, 0, STRIDE, ROWS, 10) == TILG_BAD_SAMPLE);
    CHECK(tilg_test_samples_16(reference, ALL, STRIDE, 0, 0, STRIDE, ROWS - 1, 10) == TILG_DONE);
    CHECK(tilg_test_samples_16(reference, STRIDE * (ROWS - 1) - 3, STRIDE, 0, 0, STRIDE - 3, ROWS - 1, 10) == TILG_DONE);
    CHECK(tilg_test_samples_16(reference, STRIDE * (ROWS - 1) - 4, STRIDE, 0, 0, STRIDE - 3, ROWS - 1, 10) == TILG_BAD_AREA);
    CHECK(tilg_test_samples_16(reference, ALL, STRIDE, 0, 0, STRIDE, ROWS, 9) == TILG_BAD_DEPTH);
    CHECK(tilg_test_samples_16(reference, ALL, STRIDE, 1, 0, STRIDE, ROWS, 10) == TILG_BAD_AREA);
    CHECK(tilg_put_tested_16(samples, 8, 4, 0, 0, reference, ALL, STRIDE, 4, 5, &block, 9) == TILG_BAD_DEPTH);
    CHECK(tilg_prep_tested_16(values, 8, reference, ALL, STRIDE, 4, 5, &block, 9) == TILG_BAD_DEPTH);
    CHECK(tilg_prep_tested_16(values, 7, reference, ALL, STRIDE, 4, 5, &block, 10) == TILG_TOO_SHORT);
    CHECK(are_all_16(values, 8, 0));
    CHECK(tilg_prep_tested_16(values, 8, reference, ALL, STRIDE, 4, 5, &block, 10) == TILG_DONE);
    CHECK(are_all_16(values, 8, -192));
    CHECK(tilg_put_tested_16(samples, 8, 4, 0, 1, reference, ALL, STRIDE, 4, 5, &block, 10) == TILG_BAD_AREA);
    for (int i = 0; i < 8; i++) CHECK(samples[i] == 0);
    CHECK(tilg_put_tested_16(samples, 8, 4, 0, 0, reference, ALL, STRIDE, 4, 5, &block, 10) == TILG_DONE);
    for (int i = 0; i < 8; i++) CHECK(samples[i] == 500);
    memset(samples, 0, sizeof samples);
    CHECK(tilg_mc_avg_16(samples, 8, 4, 0, 0, 4, 2, values, 8, values, 8, 9) == TILG_BAD_DEPTH);
    for (int i = 0; i < 8; i++) CHECK(samples[i] == 0);
    CHECK(tilg_mc_avg_16(samples, 8, 4, 0, 0, 4, 2, values, 8, values, 8, 10) == TILG_DONE);
    for (int i = 0; i < 8; i++) CHECK(samples[i] == 500);
}

int main(void) {
    moved_blocks();
    sharp_blocks();
    blocks_without_pads();
    averaged_blocks();
    refused_blocks();
    planes_that_end_with_the_block();
    blocks_of_16_bits();
    return 0;
}
