/* Makes every call with many arguments, and tells how deep each went on the stack, in bytes: a line for each call. stack.py runs it, since what it
 * works out from the code must be at least that. A plan comes from the file that is named. */
#include "tilgwaren.h"

#include <stdio.h>
#include <stdlib.h>
#include <string.h>

#define CHECK(e) do { if (!(e)) { fprintf(stderr, "%s:%d: %s\n", __FILE__, __LINE__, #e); exit(1); } } while (0)

enum { PAINTED = 1 << 14, NEAREST = 16, ABOVE = 2, SIDE = 256, MIDDLE = 64, MOST = 4096 };

static const uint64_t paint = 0xA5A5A5A5A5A5A5A5;

/* Paints the words that lie below the stack's end, but for the nearest ones. */
__attribute__((noinline)) static void paint_below(void) {
    volatile uint64_t *end = __builtin_frame_address(0);
    for (ptrdiff_t i = NEAREST + 1; i < PAINTED; i++) end[-i] = paint;
}

/* How many bytes a function took that was called where this one is; 0 stands for few. */
__attribute__((noinline)) static size_t taken(void) {
    volatile uint64_t *end = __builtin_frame_address(0);
    ptrdiff_t i = PAINTED - 1;
    while (i > NEAREST && end[-i] == paint) i--;
    CHECK(i < PAINTED - 1);
    return i > NEAREST ? (size_t)(i + ABOVE) * sizeof paint : 0;
}

/* The deepest of all calls of this kind so far is kept in `deepest`. */
#define DEEP(call)                                       \
    do {                                                 \
        paint_below();                                   \
        uint32_t status = (call);                        \
        size_t bytes = taken();                          \
        CHECK(status == TILG_DONE);                       \
        deepest = bytes > deepest ? bytes : deepest;     \
    } while (0)

static uint8_t plane_8[SIDE * SIDE], other_8[SIDE * SIDE];
static uint16_t plane_16[SIDE * SIDE], other_16[SIDE * SIDE];
static int16_t first[128 * 128], second[128 * 128], few[1024];
static int32_t many[1024];
static tilg_context context;

static void tell(const char *name, size_t deepest) { printf("%s %zu\n", name, deepest); }

static void fill(void) {
    for (int i = 0; i < SIDE * SIDE; i++) plane_16[i] = other_16[i] = plane_8[i] = other_8[i] = (uint8_t)(i * 7 + i / SIDE);
    for (int i = 0; i < 1024; i++) many[i] = few[i] = (int16_t)(i % 61 - 30);
}

/* Whether transforms of this size have this type: the call says so of a block that lies nowhere. */
static int is_transform(uint8_t size, uint8_t type) {
    return tilg_inverse_transform_add_8(plane_8, 0, SIDE, 0, 0, &context, few, 1024, size, type) == TILG_BAD_AREA;
}

enum transform { ADD_8, ADD_16, ADD_RAV1E };

static void transforms(enum transform call) {
    static const char *names[] = {"tilg_inverse_transform_add_8", "tilg_inverse_transform_add_16", "tilg_inverse_transform_add_rav1e_16"};
    size_t deepest = 0;
    for (uint8_t size = 0; size < 19; size++)
        for (uint8_t type = 0; type < 17; type++) {
            if (!is_transform(size, type)) continue;
            if (call == ADD_16)
                DEEP(tilg_inverse_transform_add_16(plane_16, SIDE * SIDE, SIDE, 4, 4, &context, many, 1024, size, type, 10));
            else if (call == ADD_RAV1E)
                DEEP(tilg_inverse_transform_add_rav1e_16(plane_16, SIDE * SIDE, SIDE, 4, 4, &context, many, 1024, size, type, 10));
            else
                DEEP(tilg_inverse_transform_add_8(plane_8, SIDE * SIDE, SIDE, 4, 4, &context, few, 1024, size, type));
        }
    tell(names[call], deepest);
}

enum motion { PUT_8, PREP_8, PUT_TESTED, PREP_TESTED };

static void motion(enum motion kind, const char *name) {
    size_t deepest = 0, all = SIDE * SIDE, from = MIDDLE, side = 128 * 128;
    for (uint8_t way = 0; way < 4 * 4; way++)
        for (unsigned size = 0; size < 64; size++) {
            tilg_motion_block block = {(size_t)1 << size % 8, (size_t)1 << size / 8, way % 2 * 5, way / 2 % 2 * 5, way / 4, 3 - way / 4};
            switch (kind) {
            case PUT_8: DEEP(tilg_put_8tap_8(plane_8, all, SIDE, 0, 0, other_8, all, SIDE, from, from, &block)); break;
            case PREP_8: DEEP(tilg_prep_8tap_8(first, side, other_8, all, SIDE, from, from, &block)); break;
            case PUT_TESTED: DEEP(tilg_put_tested_16(plane_16, all, SIDE, 0, 0, other_16, all, SIDE, from, from, &block, 10)); break;
            case PREP_TESTED: DEEP(tilg_prep_tested_16(first, side, other_16, all, SIDE, from, from, &block, 10)); break;
            }
        }
    tell(name, deepest);
}

static void tests(void) {
    size_t deepest = 0, all = SIDE * SIDE;
    for (size_t width = 1; width <= SIDE; width++) DEEP(tilg_test_samples_16(plane_16, all, SIDE, 0, 0, width, SIDE, 10));
    tell("tilg_test_samples_16", deepest);
}

static void moved(int is_deep, int is_prepared, const char *name) {
    static const tilg_motion_plane plane = {SIDE, 0, 0, SIDE, SIDE, 0, 0};
    size_t deepest = 0, all = SIDE * SIDE;
    for (uint8_t way = 0; way < 4 * 4 * 2; way++)
        for (unsigned size = 0; size < 64; size++) {
            int16_t off = way / 16 ? -1000 : 40;
            tilg_moved_block block = {MIDDLE, MIDDLE, (size_t)1 << size % 8, (size_t)1 << size / 8, (int16_t)(off + way % 2 * 5),
                                     (int16_t)(off + way / 2 % 2 * 5), way / 4 % 4, 3 - way / 4 % 4};
            if (is_deep && is_prepared)
                DEEP(tilg_prep_moved_16(first, 128 * 128, &context, other_16, all, &plane, &block, 10));
            else if (is_prepared)
                DEEP(tilg_prep_moved_8(first, 128 * 128, &context, other_8, all, &plane, &block));
            else if (is_deep)
                DEEP(tilg_put_moved_16(plane_16, all, SIDE, 0, 0, &context, other_16, all, &plane, &block, 10));
            else
                DEEP(tilg_put_moved_8(plane_8, all, SIDE, 0, 0, &context, other_8, all, &plane, &block));
        }
    tell(name, deepest);
}

static void averages(int is_deep) {
    size_t deepest = 0, all = SIDE * SIDE, len = 128 * 128;
    for (unsigned size = 0; size < 64; size++) {
        size_t w = (size_t)1 << size % 8, h = (size_t)1 << size / 8;
        if (is_deep)
            DEEP(tilg_mc_avg_16(plane_16, all, SIDE, 0, 0, w, h, first, len, second, len, 10));
        else
            DEEP(tilg_mc_avg_8(plane_8, all, SIDE, 0, 0, w, h, first, len, second, len));
    }
    tell(is_deep ? "tilg_mc_avg_16" : "tilg_mc_avg_8", deepest);
}

enum intra { INTRA, CFL, EDGE, PLANE };

static uint32_t predict(enum intra kind, int is_deep, const tilg_intra_block *block) {
    static const tilg_edge_plane plane = {.stride = SIDE, .width = SIDE, .height = SIDE, .tile_width = SIDE, .tile_height = SIDE};
    size_t all = SIDE * SIDE, at = MIDDLE;
    tilg_edge_block edge = {at, at, at / 4, at / 4, 0, 0, 12, block->tx_size, block->mode, block->angle_step, block->bit_depth, 1};
    size_t deepest = 0;
    if (kind == INTRA && is_deep)
        DEEP(tilg_predict_intra_16(plane_16, all, SIDE, at, at, block, other_16, 128, 9, other_16 + 128, 128));
    else if (kind == INTRA)
        DEEP(tilg_predict_intra_8(plane_8, all, SIDE, at, at, block, other_8, 128, 9, other_8 + 128, 128));
    else if (kind == CFL && is_deep)
        DEEP(tilg_predict_cfl_16(plane_16, all, SIDE, at, at, block, other_16, 128, other_16 + 128, 128, first, 64 * 64, 3));
    else if (kind == CFL)
        DEEP(tilg_predict_cfl_8(plane_8, all, SIDE, at, at, block, other_8, 128, other_8 + 128, 128, first, 64 * 64, 3));
    else if (kind == PLANE && is_deep)
        DEEP(tilg_predict_in_plane_16(plane_16, all, &plane, &edge, 1, NULL, 0, 0));
    else if (kind == PLANE)
        DEEP(tilg_predict_in_plane_8(plane_8, all, &plane, &edge, 1, NULL, 0, 0));
    else if (is_deep)
        DEEP(tilg_intra_edge_16(other_16, TILG_EDGE_SAMPLES, plane_16, all, &plane, &edge));
    else
        DEEP(tilg_intra_edge_8(other_8, TILG_EDGE_SAMPLES, plane_8, all, &plane, &edge));
    return (uint32_t)deepest;
}

static void intra(enum intra kind, int is_deep, const char *name) {
    size_t deepest = 0;
    for (uint8_t size = 0; size < 19; size++)
        for (uint8_t mode = 0; mode < 13; mode++)
            for (int8_t step = -3; step <= 3; step += 3) {
                if (step != 0 && (mode < 1 || mode > 8 || kind == CFL)) continue;
                for (uint8_t sides = 0; sides < 8; sides++) {
                    tilg_intra_block block = {mode, size, step, is_deep ? 10 : 8, sides & 1, sides >> 1 & 1, sides >> 2, 1, 100, 100};
                    size_t bytes = predict(kind, is_deep, &block);
                    deepest = bytes > deepest ? bytes : deepest;
                }
            }
    tell(name, deepest);
}

static void luma(int is_deep) {
    static const uint8_t sizes[] = {0, 1, 2, 3, 4, 5, 6, 7, 8, 9, 16, 17, 18, 19};
    size_t deepest = 0, all = SIDE * SIDE;
    for (unsigned i = 0; i < sizeof sizes; i++)
        for (uint8_t sampling = 0; sampling < 3; sampling++) {
            tilg_cfl_block block = {sizes[i], sampling > 0, sampling > 1, 0, 0};
            if (is_deep)
                DEEP(tilg_cfl_ac_tested_16(first, 32 * 32, plane_16, all, SIDE, 0, 0, &block));
            else
                DEEP(tilg_cfl_ac_8(first, 32 * 32, plane_8, all, SIDE, 0, 0, &block));
        }
    tell(is_deep ? "tilg_cfl_ac_tested_16" : "tilg_cfl_ac_8", deepest);
}

static void numbers(void) {
    static const tilg_luma_block luma_block = {.block_size = 9, .tx_size = 1, .halved_columns = 1, .halved_rows = 1, .visible_columns = 12, .visible_rows = 8};
    tilg_cfl_block block;
    size_t deepest = 0;
    DEEP(tilg_cfl_block_of(&block, &luma_block));
    tell("tilg_cfl_block_of", deepest);
}

static void whole(const uint8_t *plan, size_t len) {
    static uint8_t room[MOST];
    size_t wanted, written, deepest = 0;
    tilg_refusal refusal;
    DEEP(tilg_planes_len(&wanted, &refusal, plan, len));
    tell("tilg_planes_len", deepest);
    deepest = 0;
    DEEP(tilg_reconstruct_plan(room, sizeof room, &written, &refusal, plan, len));
    tell("tilg_reconstruct_plan", deepest);
    paint_below();
    CHECK(tilg_version_0_4() == TILG_VERSION);
    tell("tilg_version_0_4", taken());
}

/* A plan without references as a grid of one tile and as a sequence of one frame, and compared with planes that are all 0. */
static void parts(const uint8_t *plan, size_t len) {
    static uint8_t room[MOST], text[2 * MOST];
    enum { HEADER = 20 };
    uint8_t leaves[4] = {(uint8_t)(len - HEADER), (uint8_t)((len - HEADER) >> 8), 0, 0};
    size_t wanted, written, found, deepest = 0;
    tilg_difference list[4];
    tilg_part_refusal told;
    tilg_refusal refusal;
    memcpy(text + 4, plan + 4, HEADER - 4), memcpy(text + HEADER, "\1\1", 2);
    memcpy(text + HEADER + 2, leaves, 4), memcpy(text + HEADER + 6, plan + HEADER, len - HEADER);
    for (int third = 0; third < 2; third++) {
        memcpy(text, third ? "RTL2" : "RTL1", 4);
        DEEP(tilg_reconstruct_tiles(room, sizeof room, &written, &told, text, len + 6));
    }
    tell("tilg_reconstruct_tiles", deepest);
    deepest = 0;
    memcpy(text, "RSQ1", 4), memcpy(text + 4, plan + 4, 6), memcpy(text + 10, "\1\0\0\0\0\0\0\0\0\0\0\0", 12);
    memcpy(text + 22, leaves, 4), memcpy(text + 26, plan + HEADER, len - HEADER);
    DEEP(tilg_reconstruct_sequence(room, sizeof room, &written, &told, text, len + 6));
    tell("tilg_reconstruct_sequence", deepest);
    deepest = 0;
    CHECK(tilg_planes_len(&wanted, &refusal, plan, len) == TILG_DONE && wanted <= sizeof text);
    memset(text, 0, wanted);
    size_t width = plan[4] | plan[5] << 8;
    DEEP(tilg_trace_differences(list, 4, &found, &refusal, plan, len, text, wanted, width, text, wanted, width, text, wanted, width));
    tell("tilg_trace_differences", deepest);
}

static void builder(void) {
    static uint8_t room[MOST];
    static const tilg_plan_header header = {.width = 8, .height = 8, .version = 1, .bit_depth = 8, .sampling = 2, .mask = 1};
    static const tilg_leaf leaf = {.has_chroma = 1};
    static const tilg_coefficient lifted = {.value = 100};
    tilg_builder builder;
    tilg_next_field next;
    uint32_t field;
    size_t deepest = 0;
    DEEP(tilg_builder_begin(&builder, room, MOST, &header));
    tell("tilg_builder_begin", deepest);
    deepest = 0;
    DEEP(tilg_builder_reference(&builder, room, MOST, plane_16, 64, plane_16, 64, plane_16, 64));
    tell("tilg_builder_reference", deepest);
    deepest = 0;
    DEEP(tilg_builder_mark(&builder, room, MOST, 0));
    tell("tilg_builder_mark", deepest);
    deepest = 0;
    DEEP(tilg_builder_leaf(&builder, room, MOST, &field, &leaf, &lifted, 1, NULL, 0, NULL, 0));
    tell("tilg_builder_leaf", deepest);
    deepest = 0;
    DEEP(tilg_builder_next(&next, &builder));
    tell("tilg_builder_next", deepest);
}

int main(int count, char **words) {
    static uint8_t plan[MOST];
    CHECK(count == 2);
    FILE *file = fopen(words[1], "rb");
    CHECK(file);
    size_t len = fread(plan, 1, sizeof plan, file);
    fclose(file);
    fill();
    whole(plan, len);
    parts(plan, len);
    builder();
    for (int is_deep = 0; is_deep < 2; is_deep++) {
        transforms(is_deep ? ADD_16 : ADD_8);
        averages(is_deep);
        moved(is_deep, 0, is_deep ? "tilg_put_moved_16" : "tilg_put_moved_8");
        moved(is_deep, 1, is_deep ? "tilg_prep_moved_16" : "tilg_prep_moved_8");
        luma(is_deep);
        intra(INTRA, is_deep, is_deep ? "tilg_predict_intra_16" : "tilg_predict_intra_8");
        intra(CFL, is_deep, is_deep ? "tilg_predict_cfl_16" : "tilg_predict_cfl_8");
        intra(EDGE, is_deep, is_deep ? "tilg_intra_edge_16" : "tilg_intra_edge_8");
        intra(PLANE, is_deep, is_deep ? "tilg_predict_in_plane_16" : "tilg_predict_in_plane_8");
    }
    transforms(ADD_RAV1E);
    numbers();
    tests();
    motion(PUT_8, "tilg_put_8tap_8");
    motion(PREP_8, "tilg_prep_8tap_8");
    motion(PUT_TESTED, "tilg_put_tested_16");
    motion(PREP_TESTED, "tilg_prep_tested_16");
    return 0;
}
