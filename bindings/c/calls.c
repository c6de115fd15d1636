/* Calls the library as its header says, and as it says not to: a plan and its planes come from two files that are named. */
#include "tilgwaren.h"

#include <stdio.h>
#include <stdlib.h>
#include <string.h>

#define CHECK(e) do { if (!(e)) { fprintf(stderr, "%s:%d: %s\n", __FILE__, __LINE__, #e); exit(1); } } while (0)

enum { MOST = 4096, ROOM = MOST + 16, FILLED = 0xA5 };

static const tilg_refusal untold = {7, 8, 9};

static size_t read_file(const char *name, uint8_t *bytes) {
    FILE *file = fopen(name, "rb");
    CHECK(file);
    size_t len = fread(bytes, 1, MOST, file);
    CHECK(len < MOST && !ferror(file));
    fclose(file);
    return len;
}

static int all_filled(const uint8_t *bytes, size_t len) {
    for (size_t i = 0; i < len; i++)
        if (bytes[i] != FILLED) return 0;
    return 1;
}

static int same_refusal(tilg_refusal a, tilg_refusal b) {
    return a.at == b.at && a.leaf == b.leaf && a.kind == b.kind;
}

/* What a call leaves. */
struct left {
    uint32_t status;
    size_t written;
    tilg_refusal refusal;
    uint8_t room[ROOM];
};

/* A call on a buffer of this length. What stands behind the buffer stays, and after a refusal the buffer too. */
static struct left call(const uint8_t *bytes, size_t len, size_t room_len) {
    struct left left = {0, 77, untold, {0}};
    memset(left.room, FILLED, sizeof left.room);
    CHECK(room_len <= ROOM);
    left.status = tilg_reconstruct_plan(left.room, room_len, &left.written, &left.refusal, bytes, len);
    if (left.status == TILG_DONE) {
        CHECK(left.written <= room_len);
        CHECK(all_filled(left.room + left.written, ROOM - left.written));
    } else {
        CHECK(left.status == TILG_ROOM_TOO_SMALL ? left.written > room_len : left.written == 77);
        CHECK(all_filled(left.room, ROOM));
    }
    CHECK(left.status <= TILG_INVALID);
    CHECK(left.status == TILG_MALFORMED || left.status == TILG_INVALID || same_refusal(left.refusal, untold));
    return left;
}

static void lengths(const uint8_t *plan, size_t len, size_t wanted) {
    for (size_t front = 0; front <= len; front++) {
        size_t told = 77;
        tilg_refusal refusal = untold;
        uint32_t status = tilg_planes_len(&told, &refusal, plan, front);
        CHECK(status == (front < 20 ? TILG_MALFORMED : TILG_DONE));
        CHECK(told == (front < 20 ? 77 : wanted));
        CHECK(front < 20 ? refusal.at <= front && refusal.leaf == 0 && refusal.kind == 0 : same_refusal(refusal, untold));
    }
}

static void plans(const uint8_t *plan, size_t len, const uint8_t *planes, size_t wanted) {
    for (size_t more = 0; more <= 9; more += 3) {
        struct left done = call(plan, len, wanted + more);
        CHECK(done.status == TILG_DONE && done.written == wanted && !memcmp(done.room, planes, wanted));
    }
    CHECK(call(plan, len, wanted - 1).status == TILG_ROOM_TOO_SMALL);
    CHECK(call(plan, len, 0).status == TILG_ROOM_TOO_SMALL);
    size_t written = 77;
    tilg_refusal refusal = untold;
    CHECK(tilg_reconstruct_plan(NULL, 0, &written, &refusal, plan, len) == TILG_ROOM_TOO_SMALL && written == wanted);
}

static void cut_plans(const uint8_t *plan, size_t len) {
    CHECK(call(NULL, 0, ROOM).status == TILG_MALFORMED);
    for (size_t front = 0; front < len; front++) {
        struct left cut = call(plan, front, ROOM);
        CHECK(cut.status == TILG_MALFORMED && cut.refusal.at <= front && cut.refusal.leaf == 0 && cut.refusal.kind == 0);
    }
    uint8_t longer[MOST + 1] = {0};
    memcpy(longer, plan, len);
    struct left left_over = call(longer, len + 1, ROOM);
    CHECK(left_over.status == TILG_MALFORMED && left_over.refusal.at == len);
}

static void long_plans(const uint8_t *plan, size_t len) {
    size_t most = (size_t)1 << 26, told = 77;
    tilg_refusal refusal = untold;
    uint8_t *bytes = calloc(most + 1, 1);
    CHECK(bytes);
    memcpy(bytes, plan, len);
    CHECK(call(bytes, most + 1, ROOM).status == TILG_TOO_LONG);
    CHECK(tilg_planes_len(&told, &refusal, bytes, most + 1) == TILG_TOO_LONG && told == 77 && same_refusal(refusal, untold));
    CHECK(call(bytes, most, ROOM).refusal.at == len);
    CHECK(tilg_planes_len(&told, &refusal, bytes, most) == TILG_DONE);
    free(bytes);
}

/* Plans with a byte or two changed: whatever they come to, the two calls agree, and what is refused leaves no trace. */
static void changed_plans(const uint8_t *plan, size_t len, unsigned count) {
    uint64_t state = 1;
    unsigned seen[TILG_INVALID + 1] = {0};
    uint8_t changed[MOST];
    for (unsigned i = 0; i < count; i++) {
        memcpy(changed, plan, len);
        for (unsigned j = 0; j < 1 + i % 2; j++) {
            state = state * 6364136223846793005u + 1442695040888963407u;
            changed[(state >> 33) % len] = (uint8_t)(state >> 24);
        }
        struct left left = call(changed, len, ROOM);
        size_t told = 77;
        tilg_refusal refusal = untold;
        uint32_t status = tilg_planes_len(&told, &refusal, changed, len);
        if (status != TILG_DONE) CHECK(status == left.status && same_refusal(refusal, left.refusal));
        if (left.status == TILG_DONE) CHECK(told == left.written);
        if (left.status == TILG_INVALID) CHECK(left.refusal.kind >= 1 && left.refusal.kind <= 6 && left.refusal.at == 0);
        seen[left.status]++;
    }
    CHECK(seen[TILG_DONE] && seen[TILG_MALFORMED] && seen[TILG_INVALID] && !seen[TILG_OUT_OF_MEMORY]);
    printf("of %u changed plans %u were done, %u malformed, %u invalid\n", count, seen[TILG_DONE], seen[TILG_MALFORMED], seen[TILG_INVALID]);
}

int main(int count, char **words) {
    static uint8_t plan[MOST], planes[MOST];
    CHECK(count == 3);
    CHECK(tilg_version_0_4() == TILG_VERSION);
    size_t len = read_file(words[1], plan), wanted = read_file(words[2], planes);
    lengths(plan, len, wanted);
    plans(plan, len, planes, wanted);
    cut_plans(plan, len);
    long_plans(plan, len);
    changed_plans(plan, len, 2000);
    return 0;
}
