/* Builds plans field by field in memory of its own, with no memory from the library, and reconstructs one. It sees that a refused call changes
 * nothing, and that a copy of the builder and of the bytes is a place to come back to. */
#include "tilgwaren.h"

#include <stdio.h>
#include <stdlib.h>
#include <string.h>

#define CHECK(e) do { if (!(e)) { fprintf(stderr, "%s:%d: %s\n", __FILE__, __LINE__, #e); exit(1); } } while (0)

enum { ROOM = 256, SIDE = 64, PLANES = 3 * SIDE };

/* An 8x8 frame in 4:4:4 at depth 8. */
static const tilg_plan_header header = {.width = 8, .height = 8, .version = 1, .bit_depth = 8, .sampling = 2};

/* Which field of a leaf is rejected. */
static uint32_t field;

/* Predicted by DC, with transforms of 4x4. */
static const tilg_leaf middle = {.has_chroma = 1};

/* A plan whose first leaf has one coefficient: 131 in all of Y, and 128 in U and V. */
static size_t built(uint8_t *room, size_t room_len) {
    tilg_coefficient lifted = {.value = 100};
    tilg_builder builder;
    size_t len = SIZE_MAX;
    CHECK(tilg_builder_begin(&builder, room, room_len, &header) == TILG_DONE);
    CHECK(builder.written == 20 && builder.slot == 8);
    CHECK(tilg_builder_leaf(&builder, room, room_len, &field, &middle, NULL, 0, NULL, 0, NULL, 0) == TILG_NOT_NOW);
    CHECK(tilg_builder_mark(&builder, room, room_len, 8) == TILG_NOT_ADMITTED);
    CHECK(tilg_builder_mark(&builder, room, room_len, 0) == TILG_DONE);
    CHECK(tilg_builder_finish(&len, &builder, room, room_len) == TILG_NOT_NOW && len == SIZE_MAX);
    CHECK(tilg_builder_leaf(&builder, room, room_len, &field, &middle, &lifted, 1, NULL, 0, NULL, 0) == TILG_DONE);
    CHECK(tilg_builder_finish(&len, &builder, room, room_len) == TILG_DONE);
    CHECK(len == builder.written);
    return len;
}

static void a_plan_is_reconstructed(void) {
    uint8_t room[ROOM], planes[PLANES];
    size_t written;
    tilg_refusal refusal;
    memset(room, 9, ROOM);
    size_t len = built(room, ROOM);
    CHECK(len == 41);
    for (size_t i = len; i < ROOM; i++) CHECK(room[i] == 9);
    CHECK(tilg_reconstruct_plan(planes, PLANES, &written, &refusal, room, len) == TILG_DONE);
    for (size_t i = 0; i < PLANES; i++) CHECK(planes[i] == (i < SIDE ? 131 : 128));
}

/* Whether two builders ask for the same next. */
static int is_same(const tilg_builder *a, const tilg_builder *b) {
    return a->written == b->written && a->slot == b->slot && a->count == b->count && a->superblock_y == b->superblock_y && a->superblock_x == b->superblock_x
        && memcmp(a->parts, b->parts, sizeof a->parts) == 0;
}

/* The planes of slot 0, one of them with a sample that is past the depth. */
static void planes_come_first(void) {
    uint8_t room[ROOM], before[ROOM];
    uint16_t dark[SIDE], past[SIDE];
    tilg_plan_header with_slot = header;
    tilg_builder builder, kept;
    for (int i = 0; i < SIDE; i++) {
        dark[i] = 10;
        past[i] = 256;
    }
    with_slot.mask = 1;
    memset(room, 9, ROOM);
    CHECK(tilg_builder_begin(&builder, room, ROOM, &with_slot) == TILG_DONE);
    memcpy(before, room, ROOM);
    kept = builder;
    CHECK(tilg_builder_mark(&builder, room, ROOM, 0) == TILG_NOT_NOW);
    CHECK(tilg_builder_reference(&builder, room, ROOM, dark, SIDE, dark, SIDE, past, SIDE) == TILG_NOT_ADMITTED);
    CHECK(tilg_builder_reference(&builder, room, ROOM, dark, SIDE, dark, SIDE, dark, SIDE - 1) == TILG_NOT_ADMITTED);
    CHECK(tilg_builder_reference(&builder, room, 211, dark, SIDE, dark, SIDE, dark, SIDE) == TILG_ROOM_TOO_SMALL);
    CHECK(memcmp(room, before, ROOM) == 0 && is_same(&builder, &kept));
    CHECK(tilg_builder_reference(&builder, room, 212, dark, SIDE, dark, SIDE, dark, SIDE) == TILG_DONE);
    CHECK(builder.written == 212 && room[20] == 10 && room[211] == 10 && room[212] == 9);
    CHECK(tilg_builder_reference(&builder, room, ROOM, dark, SIDE, dark, SIDE, dark, SIDE) == TILG_NOT_NOW);
}

/* A rejected leaf's first bad field is named, and the builder's next field, and a bound of its buffer. */
static void bad_fields(void) {
    static const struct { tilg_leaf leaf; size_t coefficients; uint32_t field; } each[] = {
        {{.has_chroma = 1, .tx_size = 19, .tx_type = 17}, 0, TILG_FIELD_TX_SIZE},
        {{.has_chroma = 1, .tx_type = 17, .mode = 34}, 0, TILG_FIELD_TX_TYPE},
        {{.has_chroma = 1, .chroma_tx_type = 17}, 0, TILG_FIELD_CHROMA_TX_TYPE},
        {{.has_chroma = 0}, 0, TILG_FIELD_HAS_CHROMA},
        {{.has_chroma = 1, .mode = 34}, 0, TILG_FIELD_MODE},
        {{.has_chroma = 1, .chroma_mode = TILG_NEARESTMV}, 0, TILG_FIELD_CHROMA_MODE},
        {{.has_chroma = 1, .mode = TILG_NEWMV}, 0, TILG_FIELD_FIRST},
        {{.has_chroma = 1, .mode = TILG_NEW_NEWMV, .first.reference = TILG_LAST_FRAME, .second.reference = 8}, 0, TILG_FIELD_SECOND},
        {{.has_chroma = 1}, 65536, TILG_FIELD_COEFFICIENTS},
    };
    static tilg_coefficient many[65536];
    uint8_t room[ROOM];
    tilg_builder builder;
    tilg_next_field next;
    CHECK(tilg_builder_begin(&builder, room, ROOM, &header) == TILG_DONE);
    CHECK(tilg_builder_next(&next, &builder) == TILG_DONE && next.kind == TILG_NEXT_MARK && next.size == TILG_BLOCK_64X64 && next.x == 0 && next.y == 0);
    CHECK(tilg_builder_mark(&builder, room, ROOM, TILG_PARTITION_NONE) == TILG_DONE);
    CHECK(tilg_builder_next(&next, &builder) == TILG_DONE && next.kind == TILG_NEXT_LEAF && next.size == TILG_BLOCK_64X64 && next.slot == 8);
    for (size_t i = 0; i < sizeof each / sizeof each[0]; i++) {
        field = 77;
        CHECK(tilg_builder_leaf(&builder, room, ROOM, &field, &each[i].leaf, many, each[i].coefficients, NULL, 0, NULL, 0) == TILG_NOT_ADMITTED);
        CHECK(field == each[i].field);
    }
    field = 77;
    CHECK(tilg_builder_leaf(&builder, room, builder.written, &field, &middle, NULL, 0, NULL, 0, NULL, 0) == TILG_ROOM_TOO_SMALL && field == 77);
    CHECK(tilg_builder_leaf(&builder, room, ROOM, &field, &middle, NULL, 0, NULL, 0, NULL, 0) == TILG_DONE && field == 77);
    CHECK(tilg_builder_next(&next, &builder) == TILG_DONE && next.kind == TILG_NEXT_NOTHING);
    CHECK(builder.written <= tilg_builder_bound(&header, 0));
    builder.count = 14;
    CHECK(tilg_builder_next(&next, &builder) == TILG_BAD_STATE && next.kind == TILG_NEXT_NOTHING);
}

/* What no calls lead to is no builder, and each short buffer is refused. */
static void refused_builders(void) {
    uint8_t room[ROOM];
    tilg_builder builder, kept;
    tilg_plan_header odd = header;
    odd.width = 9;
    memset(&builder, 0, sizeof builder);
    CHECK(tilg_builder_mark(&builder, room, ROOM, 0) == TILG_BAD_STATE);
    CHECK(tilg_builder_begin(&builder, room, ROOM, &odd) == TILG_NOT_ADMITTED);
    for (size_t len = 0; len < 20; len++) CHECK(tilg_builder_begin(&builder, room, len, &header) == TILG_ROOM_TOO_SMALL);
    CHECK(tilg_builder_begin(&builder, room, 20, &header) == TILG_DONE);
    CHECK(tilg_builder_mark(&builder, room, 20, 0) == TILG_ROOM_TOO_SMALL);
    CHECK(tilg_builder_mark(&builder, room, 19, 0) == TILG_BAD_STATE);
    kept = builder;
    kept.slot = 9;
    CHECK(tilg_builder_mark(&kept, room, ROOM, 0) == TILG_BAD_STATE);
    kept = builder;
    kept.count = 14;
    CHECK(tilg_builder_mark(&kept, room, ROOM, 0) == TILG_BAD_STATE);
    kept = builder;
    kept.parts[12].kind = 2;
    CHECK(tilg_builder_mark(&kept, room, ROOM, 0) == TILG_BAD_STATE);
    kept = builder;
    kept.parts[0].number = 22;
    CHECK(tilg_builder_mark(&kept, room, ROOM, 0) == TILG_BAD_STATE);
    kept = builder;
    kept.superblock_y = 1;
    CHECK(tilg_builder_mark(&kept, room, ROOM, 0) == TILG_BAD_STATE);
}

/* Another mark is tried, and the first one taken back. */
static void a_builder_is_come_back_to(void) {
    uint8_t room[ROOM], other[ROOM];
    tilg_builder builder, kept;
    CHECK(tilg_builder_begin(&builder, room, ROOM, &header) == TILG_DONE);
    kept = builder;
    CHECK(tilg_builder_mark(&builder, room, ROOM, 3) == TILG_DONE);
    CHECK(tilg_builder_leaf(&builder, room, ROOM, &field, &middle, NULL, 0, NULL, 0, NULL, 0) == TILG_NOT_NOW);
    memcpy(other, room, kept.written);
    CHECK(tilg_builder_mark(&kept, other, ROOM, 0) == TILG_DONE);
    CHECK(tilg_builder_leaf(&kept, other, ROOM, &field, &middle, NULL, 0, NULL, 0, NULL, 0) == TILG_DONE);
}

/* A frame of one leaf in 4:2:0, with transforms of 64x64: the plan's 34 bytes. */
static void bytes_of_a_leaf(void) {
    static const uint8_t plan[34] = {'R', 'P', 'L', '1', 8, 0, 8, 0, 8, [25] = 4};
    const tilg_leaf whole = {.has_chroma = 1, .tx_size = 4};
    tilg_plan_header flat = header;
    tilg_builder builder;
    uint8_t room[ROOM];
    size_t len;
    flat.sampling = 0;
    CHECK(tilg_builder_begin(&builder, room, ROOM, &flat) == TILG_DONE);
    CHECK(tilg_builder_mark(&builder, room, ROOM, 0) == TILG_DONE);
    CHECK(tilg_builder_mark(&builder, room, ROOM, 3) == TILG_NOT_NOW);
    CHECK(tilg_builder_leaf(&builder, room, ROOM, &field, &whole, NULL, 0, NULL, 0, NULL, 0) == TILG_DONE);
    CHECK(tilg_builder_finish(&len, &builder, room, ROOM) == TILG_DONE);
    CHECK(len == sizeof plan && memcmp(room, plan, len) == 0);
}

/* An 8x8 frame cut down to four leaves of 4x4, of which the first has so many coefficients in Y. */
static size_t four_leaves(uint8_t *room, size_t room_len, size_t count) {
    tilg_coefficient lifted = {.value = 100};
    tilg_builder builder;
    size_t len;
    CHECK(tilg_builder_begin(&builder, room, room_len, &header) == TILG_DONE);
    for (int i = 0; i < 4; i++) CHECK(tilg_builder_mark(&builder, room, room_len, 3) == TILG_DONE);
    CHECK(tilg_builder_mark(&builder, room, room_len, 3) == TILG_NOT_NOW);
    CHECK(tilg_builder_leaf(&builder, room, room_len, &field, &middle, &lifted, count, NULL, 0, NULL, 0) == TILG_DONE);
    for (int i = 0; i < 3; i++) CHECK(tilg_builder_leaf(&builder, room, room_len, &field, &middle, NULL, 0, NULL, 0, NULL, 0) == TILG_DONE);
    CHECK(tilg_builder_finish(&len, &builder, room, room_len) == TILG_DONE);
    return len;
}

/* The worked plan's 83 bytes, and the 76 of it without its coefficient, which come to 128 everywhere. */
static void bytes_of_four_leaves(void) {
    static const uint8_t plan[83] = {'R', 'P', 'L', '1', 8, 0, 8, 0, 8, 2, [20] = 3, 3, 3, 3, [31] = 1, [36] = 100};
    static const uint8_t bare[76] = {'R', 'P', 'L', '1', 8, 0, 8, 0, 8, 2, [20] = 3, 3, 3, 3};
    uint8_t room[ROOM], planes[PLANES];
    size_t written;
    tilg_refusal refusal;
    CHECK(four_leaves(room, ROOM, 1) == sizeof plan && memcmp(room, plan, sizeof plan) == 0);
    CHECK(four_leaves(room, ROOM, 0) == sizeof bare && memcmp(room, bare, sizeof bare) == 0);
    CHECK(tilg_reconstruct_plan(planes, PLANES, &written, &refusal, room, sizeof bare) == TILG_DONE && written == PLANES);
    for (size_t i = 0; i < PLANES; i++) CHECK(planes[i] == 128);
}

/* A leaf that is moved a sample right over planes that were given: 20 bytes of the header, the planes, the mark, and the leaf. */
static void bytes_of_a_moved_leaf(void) {
    static const uint8_t spelled[] = {0, 19, 1, 0, 0, 8, 0, 4, 0, 0, 0, 0, 0, 0, 0, 0};
    const tilg_leaf moved = {.first = {.mv_x = 8, .reference = 1}, .mode = 19, .has_chroma = 1, .tx_size = 4};
    tilg_plan_header with_slot = header;
    tilg_builder builder;
    uint16_t ramp[SIDE], flat[SIDE];
    uint8_t room[300];
    size_t len;
    for (int i = 0; i < SIDE; i++) {
        ramp[i] = 10 * (i % 8);
        flat[i] = 128;
    }
    with_slot.mask = 1;
    CHECK(tilg_builder_begin(&builder, room, sizeof room, &with_slot) == TILG_DONE);
    CHECK(tilg_builder_reference(&builder, room, sizeof room, ramp, SIDE, flat, SIDE, flat, SIDE) == TILG_DONE);
    CHECK(tilg_builder_mark(&builder, room, sizeof room, 0) == TILG_DONE);
    CHECK(tilg_builder_leaf(&builder, room, sizeof room, &field, &moved, NULL, 0, NULL, 0, NULL, 0) == TILG_DONE);
    CHECK(tilg_builder_finish(&len, &builder, room, sizeof room) == TILG_DONE);
    CHECK(len == 20 + PLANES + sizeof spelled && room[19] == 1);
    for (int i = 0; i < PLANES; i++) CHECK(room[20 + i] == (i < SIDE ? ramp[i] : 128));
    CHECK(memcmp(room + 20 + PLANES, spelled, sizeof spelled) == 0);
}

/* A frame of 9x8 in the third version: what its leaf reads right of the last column that is shown, the ninth, is that one. */
static void a_frame_of_any_sides(void) {
    enum { WIDTH = 9, SHOWN = 8 * WIDTH };
    static const uint8_t first_row[WIDTH] = {40, 50, 60, 70, 80, 80, 80, 80, 80};
    const tilg_leaf moved = {.first = {.mv_x = 32, .reference = 1}, .mode = 19, .has_chroma = 1, .tx_size = 4};
    tilg_plan_header odd = header;
    tilg_builder builder;
    uint16_t ramp[SHOWN], flat[SHOWN];
    uint8_t room[300], planes[3 * SHOWN];
    size_t len, wanted, written;
    tilg_refusal refusal;
    for (int i = 0; i < SHOWN; i++) {
        ramp[i] = 10 * (i % WIDTH);
        flat[i] = 128;
    }
    odd.width = WIDTH;
    odd.mask = 1;
    odd.version = 2;
    CHECK(tilg_builder_begin(&builder, room, sizeof room, &odd) == TILG_NOT_ADMITTED);
    odd.version = 3;
    CHECK(tilg_builder_begin(&builder, room, sizeof room, &odd) == TILG_DONE && memcmp(room, "RPL3", 4) == 0);
    CHECK(tilg_builder_reference(&builder, room, sizeof room, ramp, SHOWN - 1, flat, SHOWN, flat, SHOWN) == TILG_NOT_ADMITTED);
    CHECK(tilg_builder_reference(&builder, room, sizeof room, ramp, SHOWN, flat, SHOWN, flat, SHOWN) == TILG_DONE);
    CHECK(tilg_builder_mark(&builder, room, sizeof room, 0) == TILG_DONE);
    CHECK(tilg_builder_leaf(&builder, room, sizeof room, &field, &moved, NULL, 0, NULL, 0, NULL, 0) == TILG_DONE);
    CHECK(tilg_builder_finish(&len, &builder, room, sizeof room) == TILG_DONE);
    CHECK(tilg_planes_len(&wanted, &refusal, room, len) == TILG_DONE && wanted == sizeof planes);
    CHECK(tilg_reconstruct_plan(planes, sizeof planes, &written, &refusal, room, len) == TILG_DONE && written == sizeof planes);
    for (int i = 0; i < 3 * SHOWN; i++) CHECK(planes[i] == (i < SHOWN ? first_row[i % WIDTH] : 128));
}

int main(void) {
    bytes_of_a_leaf();
    bytes_of_four_leaves();
    bytes_of_a_moved_leaf();
    a_plan_is_reconstructed();
    planes_come_first();
    bad_fields();
    refused_builders();
    a_builder_is_come_back_to();
    a_frame_of_any_sides();
    return 0;
}
