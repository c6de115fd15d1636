/* Plans field by field: tilg_builder_begin, _reference, _mark, _leaf, _finish. A plan that they give is then reconstructed. */
#include "plans.h"

enum { MOST_FIELDS = 400, COEFFICIENTS = 12 };

static numbers room, planes[3];
static tilg_builder builder, before;
static bool spoiled; /* whether the builder holds numbers that no call left there */

/* A field was asked for: after DONE what was there stays, and only what was appended is new. */
static void appended(uint32_t call, uint32_t status, uint64_t among) {
    came_up(call, builder.count * 8 + builder.header.sampling, builder.superblock_y / 16 * 8 + builder.superblock_x / 16, status);
    answered(status, among);
    if (status != TILG_DONE) {
        all_kept(room);
        CHECK(!memcmp(&builder, &before, sizeof builder));
        return;
    }
    CHECK(before.written <= builder.written && builder.written <= room.count);
    CHECK(!memcmp(room.at, room.copy, before.written));
    kept_behind(room, builder.written);
    memcpy(room.copy + before.written, (uint8_t *)room.at + before.written, builder.written - before.written);
}

/* How much of the room a call is told of: all, or now and then less. */
static size_t told_room(void) {
    return one_in(40) ? below(room.count + 1) : room.count;
}

static uint32_t reference(void) {
    size_t counts[3];
    for (int i = 0; i < 3; i++) counts[i] = one_in(24) ? below(planes[i].count + 1) : planes[i].count;
    uint32_t status = tilg_builder_reference(&builder, room.at, told_room(), planes[0].at, counts[0], planes[1].at, counts[1], planes[2].at, counts[2]);
    appended(1, status, 0 OR(DONE) OR(NOT_NOW) OR(NOT_ADMITTED) OR(TOO_LONG) OR(ROOM_TOO_SMALL) OR(BAD_STATE));
    return status;
}

static uint32_t mark(void) {
    static const uint8_t marks[] = {0, 1, 2, 3, 8, 9};
    uint32_t status = tilg_builder_mark(&builder, room.at, told_room(), one_in(24) ? byte() : marks[below(6)]);
    appended(2, status, 0 OR(DONE) OR(NOT_NOW) OR(NOT_ADMITTED) OR(TOO_LONG) OR(ROOM_TOO_SMALL) OR(BAD_STATE));
    return status;
}

static uint32_t leaf(void) {
    tilg_leaf given = drawn_leaf(&builder, asked_size(&builder)), told;
    tilg_coefficient values[3][COEFFICIENTS];
    size_t counts[3];
    for (int i = 0; i < 3; i++) counts[i] = drawn_coefficients(values[i], COEFFICIENTS);
    uint32_t status = TILG_NOT_ADMITTED;
    rejected = 77;
    /* A leaf carries chroma or not: one of both is admitted. */
    for (int turn = 0; turn < 2 && status == TILG_NOT_ADMITTED; turn++) {
        if (turn == 1) given = without_chroma(given), counts[1] = counts[2] = 0;
        memcpy(&told, &given, sizeof told);
        status = tilg_builder_leaf(&builder, room.at, told_room(), &rejected, &given, values[0], counts[0], values[1], counts[1], values[2], counts[2]);
        appended(3, status, 0 OR(DONE) OR(NOT_NOW) OR(NOT_ADMITTED) OR(TOO_LONG) OR(ROOM_TOO_SMALL) OR(BAD_STATE));
        CHECK(!memcmp(&given, &told, sizeof told));
        CHECK(status == TILG_NOT_ADMITTED ? 1 <= rejected && rejected <= 9 : rejected == 77);
        rejected = 77;
    }
    return status;
}

/* What is asked for next, or now and then something else. */
static uint32_t field(void) {
    uint32_t kind = builder.slot < 8 ? 0 : builder.count && builder.count <= 13 && builder.parts[builder.count - 1].kind == 0 ? 2 : 1;
    tilg_next_field next = {77, 77, 77, 77, 77};
    uint32_t status = tilg_builder_next(&next, &builder);
    CHECK(status == TILG_DONE || (spoiled && status == TILG_BAD_STATE && next.kind == 77));
    if (status == TILG_DONE && !spoiled && next.kind != TILG_NEXT_NOTHING) CHECK(next.kind == kind + 1);
    if (one_in(40)) kind = below(3);
    return kind == 0 ? reference() : kind == 1 ? mark() : leaf();
}

static void spoil(void) {
    ((uint8_t *)&builder)[below(sizeof builder)] = byte();
    spoiled = true;
}

/* What the calls gave is a plan: it is reconstructed, or a leaf of it is refused. */
static void reconstruct(size_t len) {
    size_t wanted = 0, written = 0;
    tilg_refusal refusal = {0, 0, 0};
    uint32_t status = tilg_planes_len(&wanted, &refusal, room.at, len);
    if (!spoiled) CHECK(status == TILG_DONE);
    if (status != TILG_DONE || wanted > SLOT / 2) return;
    numbers pictures = lay(wanted, 1);
    status = tilg_reconstruct_plan(pictures.at, pictures.count, &written, &refusal, room.at, len);
    came_up(5, refusal.kind, 0, status);
    answered(status, 0 OR(DONE) OR(OUT_OF_MEMORY) OR(INVALID) | (spoiled ? 0 OR(MALFORMED) : 0));
    if (status == TILG_DONE) CHECK(written == wanted);
    all_kept(room);
}

/* The header, behind planes and a room that go with it. */
static uint32_t begun(void) {
    tilg_plan_header header = drawn_header(), told;
    memcpy(&told, &header, sizeof told);
    size_t samples[3], held = __builtin_popcount(header.mask), all = 0;
    plane_samples(&header, samples);
    for (int i = 0; i < 3; i++) {
        planes[i] = lay_filled(samples[i], 2, one_in(24) ? 65535 : (1u << (is_depth(header.bit_depth) ? header.bit_depth : 8)) - 1);
        all += held * samples[i] * (header.bit_depth > 8 ? 2 : 1);
    }
    room = lay_filled(one_in(16) ? below(4096) : 20 + all + (one_in(4) ? below(400) : 6000), 1, 255);
    memset(&builder, byte(), sizeof builder);
    before = builder;
    uint32_t status = tilg_builder_begin(&builder, room.at, room.count, &header);
    CHECK(!memcmp(&header, &told, sizeof told));
    before.written = status == TILG_DONE ? 0 : before.written;
    appended(0, status, 0 OR(DONE) OR(NOT_ADMITTED) OR(ROOM_TOO_SMALL));
    CHECK(status != TILG_DONE || builder.written == 20);
    return status;
}

/* Whether the plan has all its fields: it is reconstructed then. */
static bool is_finished(void) {
    size_t len = 77;
    before = builder;
    uint32_t status = tilg_builder_finish(&len, &builder, room.at, room.count);
    came_up(4, 0, 0, status);
    answered(status, 0 OR(DONE) OR(NOT_NOW) OR(BAD_STATE));
    CHECK(!memcmp(&builder, &before, sizeof builder));
    CHECK(spoiled || status != TILG_BAD_STATE);
    CHECK(status == TILG_DONE ? len == builder.written && len <= room.count : len == 77);
    if (status == TILG_DONE) reconstruct(len);
    return status == TILG_DONE;
}

int LLVMFuzzerTestOneInput(const uint8_t *data, size_t length) {
    begin(data, length);
    spoiled = false;
    if (begun() != TILG_DONE) return 0;
    for (int i = 0; i < MOST_FIELDS; i++) {
        if (one_in(200)) spoil();
        if (is_finished() || (field() == TILG_ROOM_TOO_SMALL && one_in(2))) break;
    }
    return 0;
}
