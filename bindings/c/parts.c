/* Grids of tiles and sequences of frames, made of a plan whose file and whose planes' file are named: whole, cut and spoilt. And the plan's planes, compared. */
#include "tilgwaren.h"

#include <stdio.h>
#include <stdlib.h>
#include <string.h>

#define CHECK(e) do { if (!(e)) { fprintf(stderr, "%s:%d: %s\n", __FILE__, __LINE__, #e); exit(1); } } while (0)

enum { MOST = 4096, ROOM = 2 * MOST, FILLED = 0xA5, HEADER = 20 };

static const tilg_part_refusal untold = {7, 8, 9, 10};

typedef tilg_status (*reconstruct)(uint8_t *, size_t, size_t *, tilg_part_refusal *, const uint8_t *, size_t);

/* Bytes that grow. */
typedef struct {
    uint8_t at[MOST];
    size_t len;
} text;

static void put(text *to, const void *bytes, size_t len) {
    CHECK(to->len + len <= MOST);
    memcpy(to->at + to->len, bytes, len);
    to->len += len;
}

/* A part: its length in four bytes, and what it is. */
static void put_part(text *to, const uint8_t *bytes, size_t len) {
    uint8_t length[4] = {(uint8_t)len, (uint8_t)(len >> 8), 0, 0};
    put(to, length, 4);
    put(to, bytes, len);
}

static text read_file(const char *name) {
    text read = {{0}, 0};
    FILE *file = fopen(name, "rb");
    CHECK(file);
    read.len = fread(read.at, 1, MOST, file);
    CHECK(read.len < MOST && !ferror(file));
    fclose(file);
    return read;
}

/* The plan's frame as one tile, in a grid with these letters. */
static text grid_of(const text *plan, const char *letters) {
    text grid = {{0}, 0};
    put(&grid, letters, 4);
    put(&grid, plan->at + 4, HEADER - 4);
    put(&grid, "\1\1", 2);
    put_part(&grid, plan->at + HEADER, plan->len - HEADER);
    return grid;
}

/* Two frames, each of the plan's leaves. The first is kept in slot 0. */
static text sequence_of(const text *plan) {
    text sequence = {{0}, 0};
    put(&sequence, "RSQ1", 4);
    put(&sequence, plan->at + 4, 6);
    put(&sequence, "\2\0", 2);
    for (int frame = 0; frame < 2; frame++) {
        put(&sequence, "\0\0\0\0\0\0\0\0\0", 9);
        put(&sequence, frame ? "\0" : "\1", 1);
        put_part(&sequence, plan->at + HEADER, plan->len - HEADER);
    }
    return sequence;
}

static int same_refusal(tilg_part_refusal a, tilg_part_refusal b) {
    return a.part == b.part && a.at == b.at && a.leaf == b.leaf && a.kind == b.kind;
}

static int all_filled(const uint8_t *bytes, size_t len) {
    for (size_t i = 0; i < len; i++)
        if (bytes[i] != FILLED) return 0;
    return 1;
}

/* What a call leaves. */
struct left {
    uint32_t status;
    size_t written;
    tilg_part_refusal refusal;
    uint8_t room[ROOM];
};

/* A call on a buffer of this length. What stands behind what is written stays, and after a refusal all of it. */
static struct left call(reconstruct with, const uint8_t *bytes, size_t len, size_t room_len) {
    struct left left = {0, 77, untold, {0}};
    memset(left.room, FILLED, sizeof left.room);
    CHECK(room_len <= ROOM);
    left.status = with(left.room, room_len, &left.written, &left.refusal, bytes, len);
    CHECK(left.status == TILG_DONE ? left.written <= room_len : left.status == TILG_ROOM_TOO_SMALL ? left.written > room_len : left.written == 77);
    size_t written = left.status == TILG_DONE ? left.written : 0;
    CHECK(all_filled(left.room + written, ROOM - written));
    int tells = left.status == TILG_MALFORMED || (TILG_TOO_LONG_PART <= left.status && left.status <= TILG_EMPTY_SLOT);
    CHECK(tells || same_refusal(left.refusal, untold));
    return left;
}

/* The bytes whole, in short buffers, cut, and with a byte behind them; `count` times the planes are what they come to. */
static void whole_and_cut(reconstruct with, const text *bytes, const text *planes, size_t count) {
    size_t wanted = count * planes->len;
    for (size_t more = 0; more < 9; more += 4) {
        struct left done = call(with, bytes->at, bytes->len, wanted + more);
        CHECK(done.status == TILG_DONE && done.written == wanted);
        for (size_t i = 0; i < count; i++) CHECK(!memcmp(done.room + i * planes->len, planes->at, planes->len));
    }
    CHECK(call(with, bytes->at, bytes->len, wanted - 1).status == TILG_ROOM_TOO_SMALL);
    CHECK(call(with, bytes->at, bytes->len, 0).status == TILG_ROOM_TOO_SMALL);
    CHECK(call(with, NULL, 0, ROOM).status == TILG_MALFORMED);
    for (size_t front = 0; front < bytes->len; front++) {
        struct left cut = call(with, bytes->at, front, ROOM);
        CHECK(cut.status == TILG_MALFORMED && cut.refusal.at <= front);
        CHECK(cut.refusal.part == 0 && cut.refusal.leaf == 0 && cut.refusal.kind == 0);
    }
    struct left left_over = call(with, bytes->at, bytes->len + 1, ROOM);
    CHECK(left_over.status == TILG_MALFORMED && left_over.refusal.at == bytes->len);
}

/* Bytes past the most that are read. */
static void long_bytes(reconstruct with) {
    size_t most = (size_t)1 << 26;
    uint8_t *bytes = calloc(most + 1, 1);
    CHECK(bytes);
    CHECK(call(with, bytes, most + 1, ROOM).status == TILG_TOO_LONG);
    CHECK(call(with, bytes, most, ROOM).status == TILG_MALFORMED);
    free(bytes);
}

/* A part that begins at `start`, with a byte changed: the place of its first coefficient, and its first mark. */
static void spoilt(reconstruct with, text bytes, size_t start, uint32_t part) {
    bytes.at[start + 34 - HEADER] = 16;
    struct left invalid = call(with, bytes.at, bytes.len, ROOM);
    tilg_part_refusal leaf = {part, 0, 0, TILG_INVALID_COEFFICIENT};
    CHECK(invalid.status == TILG_INVALID_PART && same_refusal(invalid.refusal, leaf));
    bytes.at[start] = 7;
    struct left malformed = call(with, bytes.at, bytes.len, ROOM);
    tilg_part_refusal mark = {part, 0, 0, 0};
    CHECK(malformed.status == TILG_MALFORMED_PART && same_refusal(malformed.refusal, mark));
}

/* Planes of 8 bits in 4:4:4, one after the other: `len` bytes of each are given. */
static tilg_status compare(tilg_difference *room, size_t room_len, size_t *found, tilg_refusal *refusal, const text *plan, const uint8_t *planes, size_t len,
                           size_t stride) {
    size_t apart = stride * plan->at[6];
    return tilg_trace_differences(room, room_len, found, refusal, plan->at, plan->len, planes, len, stride, planes + apart, len, stride, planes + 2 * apart,
                                  len, stride);
}

/* Planes of the plan, and planes whose first sample and whose last are not; a plan that is cut, with a byte behind it and with a bad leaf. */
static void differences(const text *plan, const text *planes) {
    text other = *planes, altered = *plan;
    static const tilg_refusal nothing = {7, 8, 9};
    tilg_difference room[3];
    tilg_refusal refusal = nothing;
    size_t found = 77, width = plan->at[4], len = width * plan->at[6];
    CHECK(planes->len == 3 * len);
    memset(room, FILLED, sizeof room);
    CHECK(compare(room, 3, &found, &refusal, plan, planes->at, len, width) == TILG_DONE && found == 0);
    CHECK(all_filled((const uint8_t *)room, sizeof room));
    CHECK(compare(NULL, 0, &found, &refusal, plan, planes->at, len, width) == TILG_DONE && found == 0);
    other.at[0] ^= 255, other.at[other.len - 1] ^= 255;
    for (size_t fit = 0; fit <= 3; fit++) {
        memset(room, FILLED, sizeof room);
        CHECK(compare(room, fit, &found, &refusal, plan, other.at, len, width) == TILG_DONE && found == 2);
        if (fit > 0) CHECK(room[0].leaf == 0 && room[0].plane == 0 && room[0].y == 0 && room[0].x == 0);
        if (fit > 0) CHECK(room[0].given == other.at[0] && room[0].defined == planes->at[0]);
        if (fit > 1) CHECK(room[1].plane == 2 && room[1].defined == planes->at[other.len - 1]);
        size_t listed = fit < 2 ? fit : 2;
        CHECK(all_filled((const uint8_t *)(room + listed), sizeof room - listed * sizeof *room));
    }
    memset(room, FILLED, sizeof room), found = 77;
    CHECK(compare(room, 3, &found, &refusal, plan, planes->at, len - 1, width) == TILG_BAD_AREA);
    CHECK(compare(room, 3, &found, &refusal, plan, planes->at, len, width - 1) == TILG_BAD_AREA);
    CHECK(refusal.at == 7 && refusal.leaf == 8 && refusal.kind == 9);
    for (altered.len = 0; altered.len < plan->len; altered.len++) {
        CHECK(compare(room, 3, &found, &refusal, &altered, planes->at, len, width) == TILG_MALFORMED);
        CHECK(refusal.at <= altered.len && refusal.leaf == 0 && refusal.kind == 0);
    }
    altered.len = plan->len + 1;
    CHECK(compare(room, 3, &found, &refusal, &altered, planes->at, len, width) == TILG_MALFORMED && refusal.at == plan->len);
    altered.len = plan->len, altered.at[34] = 16;
    CHECK(compare(room, 3, &found, &refusal, &altered, planes->at, len, width) == TILG_INVALID);
    CHECK(refusal.at == 0 && refusal.leaf == 0 && refusal.kind == TILG_INVALID_COEFFICIENT);
    CHECK(found == 77 && all_filled((const uint8_t *)room, sizeof room));
}

/* The same planes among others' samples: rows that are further apart, the last of which ends with its samples. */
static void planes_in_place(const text *plan, const text *planes) {
    enum { MORE = 5 };
    static uint8_t apart[3 * MOST];
    tilg_refusal refusal;
    size_t found = 77, width = plan->at[4], rows = plan->at[6], stride = width + MORE;
    CHECK(3 * stride * rows <= sizeof apart);
    memset(apart, FILLED, sizeof apart);
    for (size_t row = 0; row < 3 * rows; row++) memcpy(apart + row * stride, planes->at + row * width, width);
    CHECK(compare(NULL, 0, &found, &refusal, plan, apart, stride * rows - MORE, stride) == TILG_DONE && found == 0);
}

/* The plan as a frame that isn't shown, which slot 0 holds then, and a slot that is shown again. The frames are of the third version. */
static text hidden_of(const text *plan, uint8_t slot) {
    text sequence = {{0}, 0};
    put(&sequence, "RSQ2", 4);
    put(&sequence, plan->at + 4, 6);
    put(&sequence, "\2\0", 2);
    put(&sequence, "\0\0\0\0\0\0\0\0\0\0\1", 11);
    put_part(&sequence, plan->at + HEADER, plan->len - HEADER);
    put(&sequence, "\2", 1);
    put(&sequence, &slot, 1);
    put(&sequence, "\0", 1);
    return sequence;
}

/* What is written is the frame that is shown again, and nothing where the slot is empty. */
static void shown_again(const text *plan, const text *planes) {
    text again = hidden_of(plan, 0), empty = hidden_of(plan, 1);
    whole_and_cut(tilg_reconstruct_sequence, &again, planes, 1);
    struct left left = call(tilg_reconstruct_sequence, empty.at, empty.len, ROOM);
    tilg_part_refusal entry = {1, 0, 0, 0};
    CHECK(left.status == TILG_EMPTY_SLOT && same_refusal(left.refusal, entry));
}

int main(int count, char **words) {
    CHECK(count == 3);
    text plan = read_file(words[1]), planes = read_file(words[2]);
    CHECK(planes.len > 0);
    text grid = grid_of(&plan, "RTL1"), third = grid_of(&plan, "RTL2"), sequence = sequence_of(&plan);
    size_t part = plan.len - HEADER;
    whole_and_cut(tilg_reconstruct_tiles, &grid, &planes, 1);
    whole_and_cut(tilg_reconstruct_tiles, &third, &planes, 1);
    whole_and_cut(tilg_reconstruct_sequence, &sequence, &planes, 2);
    shown_again(&plan, &planes);
    differences(&plan, &planes);
    planes_in_place(&plan, &planes);
    long_bytes(tilg_reconstruct_tiles);
    long_bytes(tilg_reconstruct_sequence);
    spoilt(tilg_reconstruct_tiles, grid, grid.len - part, 0);
    spoilt(tilg_reconstruct_tiles, third, third.len - part, 0);
    spoilt(tilg_reconstruct_sequence, sequence, 12 + 14, 0);
    spoilt(tilg_reconstruct_sequence, sequence, sequence.len - part, 1);
    return 0;
}
