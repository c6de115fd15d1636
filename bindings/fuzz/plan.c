/* Whole plans: tilg_planes_len and tilg_reconstruct_plan, on the fuzzer's bytes, and on plans that a builder made and some of whose bytes were changed.
 * The same plans as grids of one tile and as sequences of one frame, and compared with planes: tilg_reconstruct_tiles, tilg_reconstruct_sequence,
 * tilg_trace_differences. */
#include "heap.h"
#include "plans.h"

static numbers drawn_plan(void) {
    static uint8_t room[SLOT / 2];
    if (one_in(8)) {
        numbers raw = lay(input_end - input, 1);
        for (size_t i = 0; i < raw.count; i++) set(raw, i, byte());
        return keep(raw), raw;
    }
    tilg_plan_header header = drawn_header();
    size_t len = build(&header, room, sizeof room), changed = one_in(2) ? 0 : 1 + below(3);
    while (changed-- && len) room[below(one_in(2) && len > 40 ? 40 : len)] = byte();
    if (one_in(16)) len -= below(len < 30 ? len + 1 : 30);
    if (one_in(16) && len < sizeof room) room[len++] = byte();
    numbers plan = lay(len, 1);
    if (plan.count) memcpy(plan.at, room, plan.count);
    return keep(plan), plan;
}

/* How many bytes a plan's planes have, or SIZE_MAX where its header is refused. */
static size_t planes_of(numbers plan) {
    size_t wanted = SIZE_MAX;
    tilg_refusal refusal = {7, 8, 9};
    left_to_give = -1, kept = 0;
    uint32_t status = tilg_planes_len(&wanted, &refusal, plan.at, plan.count);
    came_up(0, 0, 0, status);
    answered(status, 0 OR(DONE) OR(TOO_LONG) OR(MALFORMED));
    CHECK(kept == 0);
    CHECK(status == TILG_DONE ? refusal.at == 7 : wanted == SIZE_MAX && refusal.at < 20 && refusal.leaf == 0 && refusal.kind == 0);
    if (status == TILG_DONE) CHECK(plan.count >= HEADER && wanted == frame_bytes((uint8_t *)plan.at + 4));
    all_kept(plan);
    return wanted;
}

/* What a refused plan is told of. */
static void told(uint32_t status, tilg_refusal refusal, size_t len) {
    if (status == TILG_MALFORMED) CHECK(refusal.at <= len && refusal.leaf == 0 && refusal.kind == 0);
    else if (status == TILG_INVALID) CHECK(refusal.at == 0 && 1 <= refusal.kind && refusal.kind <= 6);
    else CHECK(refusal.at == 7 && refusal.leaf == 8 && refusal.kind == 9);
}

/* ---- a plan as the part of something else ---- */

/* What a part is refused for is what the plan is refused for, but that marks 8 and 9 are admitted in every part. `front` bytes are not in it. */
static void told_alike(uint32_t status, tilg_part_refusal told, uint32_t plan_status, tilg_refusal plan_told, size_t front) {
    if (status == TILG_MALFORMED_PART && plan_status == TILG_MALFORMED) CHECK(told.at + front == plan_told.at);
    if (status == TILG_INVALID_PART && plan_status == TILG_INVALID) CHECK(told.leaf == plan_told.leaf && told.kind == plan_told.kind);
    if (plan_status == TILG_DONE) CHECK(status == TILG_DONE || status == TILG_OUT_OF_MEMORY);
    if (status == TILG_MALFORMED_PART || status == TILG_INVALID_PART) CHECK(plan_status == TILG_MALFORMED || plan_status == TILG_INVALID);
}

/* The text comes to the planes that the plan came to. */
static void comes_to(bool sequence, numbers planes, size_t wanted, uint32_t plan_status, tilg_refusal plan_told, size_t front) {
    numbers bytes = lay(text_len, 1), room = lay_filled(planes.count, 1, 255);
    memcpy(bytes.at, text, text_len), keep(bytes);
    tilg_part_refusal refusal = {7, 8, 9, 10};
    size_t written = 77;
    kept = 0;
    uint32_t status = (sequence ? tilg_reconstruct_sequence : tilg_reconstruct_tiles)(room.at, room.count, &written, &refusal, bytes.at, bytes.count);
    came_up(2 + sequence, refusal.kind, refusal.leaf, status);
    answered(status, 0 OR(DONE) OR(OUT_OF_MEMORY) OR(MALFORMED) OR(MALFORMED_PART) OR(INVALID_PART));
    CHECK(kept == 0);
    told_alike(status, refusal, plan_status, plan_told, front);
    all_kept(bytes);
    if (status != TILG_DONE) {
        CHECK(status == TILG_ROOM_TOO_SMALL ? written > room.count : written == 77);
        all_kept(room);
        return;
    }
    CHECK(written == wanted);
    kept_behind(room, written);
    if (plan_status == TILG_DONE) CHECK(!memcmp(room.at, planes.at, written));
}

/* The plan beside the planes that it came to, of which a sample may be changed, in rows that are further apart. */
static void beside_planes(numbers plan, numbers planes, size_t wanted) {
    tilg_refusal refusal = {7, 8, 9};
    tilg_difference list[4];
    const uint8_t *bytes = plan.at, *from = planes.at;
    size_t found = 77, changed = one_in(2) ? below(wanted) : wanted, size = bytes[8] == 8 ? 1 : 2, at = 0, strides[3];
    size_t sides[2] = {bytes[4] | bytes[5] << 8, bytes[6] | bytes[7] << 8};
    numbers given[3];
    for (int p = 0; p < 3; p++) {
        size_t width = p && bytes[9] < 2 ? (sides[0] + 1) / 2 : sides[0], height = p && bytes[9] == 0 ? (sides[1] + 1) / 2 : sides[1];
        strides[p] = size * width + (one_in(2) ? below(20) : 0);
        given[p] = lay_filled(strides[p] * (height - 1) + size * width, 1, 255);
        if (given[p].count < strides[p] * (height - 1) + size * width) return;
        for (size_t row = 0; row < height; row++, at += size * width) {
            uint8_t *to = (uint8_t *)given[p].at + row * strides[p];
            memcpy(to, from + at, size * width);
            if (at <= changed && changed < at + size * width) to[changed - at] ^= 1;
        }
        keep(given[p]);
    }
    bool cut = one_in(8) && given[0].count > 0;
    kept = 0;
    uint32_t status = tilg_trace_differences(list, 4, &found, &refusal, bytes, plan.count, given[0].at, given[0].count - cut, strides[0], given[1].at,
                                             given[1].count, strides[1], given[2].at, given[2].count, strides[2]);
    CHECK(status == (cut ? TILG_BAD_AREA : TILG_DONE) || status == TILG_OUT_OF_MEMORY);
    CHECK(kept == 0 && refusal.at == 7);
    CHECK(found == (status != TILG_DONE ? 77 : changed < wanted ? 1 : 0));
    for (int p = 0; p < 3; p++) all_kept(given[p]);
}

/* The text is the plan's frame as a grid of one tile. */
static void put_grid(const uint8_t *plan, size_t front, size_t len) {
    text_len = 0;
    put(plan[3] == '3' ? "RTL2" : "RTL1", 4), put(plan + 4, front - 4), put("\1\1", 2), put_part(plan + front, len - front);
}

/* The text is a plan without references as a sequence of its frame, which is shown and kept nowhere. */
static void put_sequence(const uint8_t *plan, size_t len) {
    bool has_kinds = plan[3] == '3';
    text_len = 0;
    put(has_kinds ? "RSQ2" : "RSQ1", 4), put(plan + 4, 6), put("\1\0", 2);
    if (has_kinds) put_byte(1);
    put(plan + 10, 9), put_byte(0), put_part(plan + HEADER, len - HEADER);
}

/* All three, where all of the references are there. */
static void as_parts(numbers plan, numbers planes, size_t wanted, uint32_t status, tilg_refusal refusal) {
    const uint8_t *bytes = plan.at;
    size_t front = HEADER + (size_t)__builtin_popcount(bytes[19]) * wanted;
    if (plan.count < front || plan.count + wanted > SLOT / 4) return;
    put_grid(bytes, front, plan.count);
    comes_to(false, planes, wanted, status, refusal, front);
    if (bytes[19] == 0) {
        put_sequence(bytes, plan.count);
        comes_to(true, planes, wanted, status, refusal, front);
    }
    if (status == TILG_DONE) beside_planes(plan, planes, wanted);
}

int LLVMFuzzerTestOneInput(const uint8_t *data, size_t length) {
    begin(data, length);
    guarded = one_in(4);
    long give = one_in(4) ? (long)below(60) : -1;
    numbers plan = drawn_plan();
    size_t wanted = planes_of(plan), written = 77, enough = wanted == SIZE_MAX ? 100 : wanted;
    if (enough > SLOT / 2) return 0; /* a large frame takes too long to be tried often */
    numbers room = lay_filled(one_in(8) ? below(enough + 1) : enough + (one_in(4) ? below(40) : 0), 1, 255);
    tilg_refusal refusal = {7, 8, 9};
    left_to_give = give;
    uint32_t status = tilg_reconstruct_plan(room.at, room.count, &written, &refusal, plan.at, plan.count);
    came_up(1, refusal.kind, refusal.leaf, status);
    answered(status, 0 OR(DONE) OR(OUT_OF_MEMORY) OR(ROOM_TOO_SMALL) OR(TOO_LONG) OR(MALFORMED) OR(INVALID));
    CHECK(kept == 0);
    all_kept(plan), told(status, refusal, plan.count);
    if (wanted == SIZE_MAX) CHECK(status == TILG_MALFORMED || status == TILG_OUT_OF_MEMORY);
    if (status == TILG_OUT_OF_MEMORY) CHECK(give >= 0);
    if (status == TILG_ROOM_TOO_SMALL) CHECK(room.count < wanted && written == wanted);
    if (status == TILG_DONE) {
        CHECK(written == wanted);
        kept_behind(room, written);
    } else {
        CHECK(status == TILG_ROOM_TOO_SMALL || written == 77);
        all_kept(room);
    }
    if (wanted != SIZE_MAX && room.count >= wanted && (status == TILG_DONE || status == TILG_MALFORMED || status == TILG_INVALID)) {
        left_to_give = give;
        as_parts(plan, room, wanted, status, refusal);
    }
    return 0;
}
