/* Refuses each allocation of a call in turn, alone and with all behind it: the call answers TILG_OUT_OF_MEMORY and writes nothing, or does it
 * all, and gives all memory back. The library's own heap (heap.c) stands here over functions that refuse, in place of that of the archive. */
#include "tilgwaren.h"

#include <stdbool.h>
#include <stdio.h>
#include <stdlib.h>
#include <string.h>

#define CHECK(e) do { if (!(e)) { fprintf(stderr, "%s:%d: %s\n", __FILE__, __LINE__, #e); exit(1); } } while (0)

static long asked, unfreed;  /* how many allocations were asked for, and how many are not given back */
static long first, last;     /* which of them are refused */

static bool is_refused(void) {
    asked++;
    return first <= asked && asked <= last;
}

void *starved_malloc(size_t size) {
    void *p = is_refused() ? NULL : malloc(size);
    unfreed += p != NULL;
    return p;
}

void *starved_realloc(void *old, size_t size) {
    return is_refused() ? NULL : realloc(old, size);
}

void starved_free(void *p) {
    unfreed--;
    free(p);
}

#define malloc starved_malloc
#define realloc starved_realloc
#define free starved_free
#include "heap.c"
#undef malloc
#undef realloc
#undef free

/* What the heap answers is never NULL, of no bytes too, and a block keeps its bytes where it can't be made longer. */
static void heap(void) {
    asked = unfreed = 0, first = 3, last = 3;
    struct tried none = rattle_alloc(0, 8), block = rattle_alloc(16, 16);
    CHECK(none.ok && none.p && block.ok && block.p && unfreed == 2);
    memset(block.p, 7, 16);
    struct tried refused = rattle_realloc(block.p, 16, 1 << 20, 16);
    CHECK(!refused.ok && refused.p && unfreed == 2);
    struct tried longer = rattle_realloc(block.p, 16, 1 << 20, 16);
    CHECK(longer.ok);
    for (int i = 0; i < 16; i++) CHECK(((uint8_t *)longer.p)[i] == 7);
    rattle_dealloc(none.p), rattle_dealloc(longer.p);
    CHECK(unfreed == 0);
}

enum { PLAN, TILES, THIRD_TILES, SEQUENCE, TRACE, KINDS, HEADER = 20, MOST = 4096 };

/* What a call is given: the plan, or a grid of one tile in either version, a sequence of one frame, or the plan and its planes. */
typedef struct {
    int kind;
    uint8_t bytes[2 * MOST];
    size_t len, wanted;
    const uint8_t *planes;
} given;

static void put(given *to, const void *bytes, size_t len) {
    CHECK(to->len + len <= sizeof to->bytes);
    memcpy(to->bytes + to->len, bytes, len);
    to->len += len;
}

static void put_part(given *to, const uint8_t *bytes, size_t len) {
    uint8_t length[4] = {(uint8_t)len, (uint8_t)(len >> 8), 0, 0};
    put(to, length, 4);
    put(to, bytes, len);
}

static void give(given *to, int kind, const uint8_t *plan, size_t len, const uint8_t *planes, size_t wanted) {
    to->kind = kind, to->len = 0;
    if (kind == PLAN || kind == TRACE) put(to, plan, len);
    bool is_grid = kind == TILES || kind == THIRD_TILES;
    if (is_grid) put(to, kind == TILES ? "RTL1" : "RTL2", 4), put(to, plan + 4, HEADER - 4), put(to, "\1\1", 2);
    if (kind == SEQUENCE) put(to, "RSQ1", 4), put(to, plan + 4, 6), put(to, "\1\0\0\0\0\0\0\0\0\0\0", 12);
    if (is_grid || kind == SEQUENCE) put_part(to, plan + HEADER, len - HEADER);
    to->planes = planes, to->wanted = wanted;
}

/* The plan has three planes of the same width and height, in bytes. */
static uint32_t differences(tilg_difference *list, size_t *found, tilg_refusal *refusal, const given *it) {
    size_t width = it->bytes[4], len = it->wanted / 3;
    const uint8_t *y = it->planes, *u = y + len, *v = u + len;
    return tilg_trace_differences(list, 1, found, refusal, it->bytes, it->len, y, len, width, u, len, width, v, len, width);
}

static uint32_t call(const given *it, uint8_t *room, size_t *written) {
    tilg_refusal refusal = {7, 8, 9};
    tilg_part_refusal told = {7, 8, 9, 10};
    tilg_difference list[1];
    uint32_t status = it->kind == PLAN ? tilg_reconstruct_plan(room, MOST, written, &refusal, it->bytes, it->len)
        : it->kind == TILES || it->kind == THIRD_TILES ? tilg_reconstruct_tiles(room, MOST, written, &told, it->bytes, it->len)
        : it->kind == SEQUENCE ? tilg_reconstruct_sequence(room, MOST, written, &told, it->bytes, it->len)
        : differences(list, written, &refusal, it);
    CHECK(refusal.at == 7 && refusal.leaf == 8 && refusal.kind == 9);
    CHECK(told.part == 7 && told.at == 8 && told.leaf == 9 && told.kind == 10);
    return status;
}

static uint32_t starve(const given *it, const uint8_t *planes, size_t wanted, long from, long to) {
    static uint8_t room[MOST];
    size_t written = 77;
    memset(room, 0xA5, sizeof room);
    asked = 0, first = from, last = to;
    uint32_t status = call(it, room, &written);
    CHECK(unfreed == 0);
    if (status == TILG_DONE && it->kind == TRACE) {
        CHECK(written == 0 && room[0] == 0xA5);
    } else if (status == TILG_DONE) {
        CHECK(written == wanted && !memcmp(room, planes, wanted));
    } else {
        CHECK(status == TILG_OUT_OF_MEMORY && written == 77);
        for (size_t i = 0; i < sizeof room; i++) CHECK(room[i] == 0xA5);
    }
    return status;
}

static size_t read_file(const char *name, uint8_t *bytes, size_t most) {
    FILE *file = fopen(name, "rb");
    CHECK(file);
    size_t len = fread(bytes, 1, most, file);
    fclose(file);
    return len;
}

static void starve_each(const given *it, const uint8_t *planes, size_t wanted) {
    CHECK(starve(it, planes, wanted, 1, 0) == TILG_DONE);
    long all = asked, refused = 0;
    for (long i = 1; i <= all; i++) {
        CHECK(starve(it, planes, wanted, i, 1000000) == TILG_OUT_OF_MEMORY);
        refused += starve(it, planes, wanted, i, i) == TILG_OUT_OF_MEMORY;
    }
    CHECK(refused > 0);
    printf("each of %ld allocations refused: %ld alone ended the call\n", all, refused);
}

int main(int count, char **words) {
    static uint8_t plan[MOST], planes[MOST];
    static given it;
    CHECK(count == 3);
    heap();
    size_t len = read_file(words[1], plan, sizeof plan), wanted = read_file(words[2], planes, sizeof planes);
    for (int kind = 0; kind < KINDS; kind++) {
        give(&it, kind, plan, len, planes, wanted);
        starve_each(&it, planes, wanted);
    }
    return 0;
}
