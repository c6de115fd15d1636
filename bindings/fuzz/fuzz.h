/* What the fuzz targets share: arguments from the fuzzer's bytes, buffers between guards, and what is looked at after each call.
 *
 * The archive isn't compiled with sanitizers. So that each read or write past a buffer's end is seen all the same, a buffer lies flush with a page
 * that no one may touch, before it or behind it as the fuzzer has it, and a zone of bytes on its other side has to stay as it is. */
#ifndef FUZZ_H
#define FUZZ_H

#include "tilgwaren.h"

#include <stdbool.h>
#include <stdio.h>
#include <stdlib.h>
#include <string.h>
#include <sys/mman.h>

#define CHECK(e) do { if (!(e)) { fprintf(stderr, "%s:%d: %s\n", __FILE__, __LINE__, #e); abort(); } } while (0)
#define OR(status) | 1ull << TILG_##status
#define UNUSED __attribute__((unused))

enum { PAGE = 4096, SLOT = 128 * PAGE, ZONE = PAGE, SLOTS = 10, KEPT = 0xC3 };

/* ---- the fuzzer's bytes ---- */

static const uint8_t *input, *input_end;

static uint8_t byte(void) {
    return input < input_end ? *input++ : 0;
}

static uint64_t bytes(int count) {
    uint64_t value = 0;
    while (count--) value = value << 8 | byte();
    return value;
}

/* Below `count`, which is at most 2^32. */
static size_t below(size_t count) {
    return count <= 1 ? 0 : bytes(count <= 256 ? 1 : count <= 65536 ? 2 : 4) % count;
}

/* Not where the bytes have run out, so that what comes then is plain. */
static bool one_in(size_t count) {
    return below(256) >= 256 - 256 / count;
}

/* Any number, mostly one at which sums and products wrap. */
static size_t wild(void) {
    size_t edge = (size_t)1 << below(64);
    switch (below(4)) {
    case 0: return below(300);
    case 1: return edge + below(16);
    case 2: return edge - below(16);
    default: return bytes(8);
    }
}

/* Below `count`, or now and then any number. */
static size_t near(size_t count) {
    return one_in(32) ? wild() : below(count);
}

/* A number of which `count` are named, or now and then any byte. */
static uint8_t UNUSED number(size_t count) {
    return one_in(24) ? byte() : below(count);
}

static uint8_t UNUSED depth(void) {
    return one_in(32) ? byte() : 8 + 2 * below(3);
}

static bool UNUSED is_depth(size_t bits) {
    return bits == 8 || bits == 10 || bits == 12;
}

static uint64_t state;

static uint32_t noise(void) {
    state ^= state << 13, state ^= state >> 7, state ^= state << 17;
    return state >> 32;
}

/* Marks what came up, so that the fuzzer keeps an input for it: each status of a call, and each number of what it was asked for. */
__attribute__((section("__libfuzzer_extra_counters"))) static uint8_t came[1 << 14];

static void came_up(uint32_t call, uint32_t what, uint32_t more, uint32_t status) {
    came[call * 512 + status % 64] = 1;
    came[call * 512 + 64 + what % 256] = 1;
    came[call * 512 + 320 + more % 192] = 1;
}

/* ---- buffers ---- */

/* So many numbers of `width` bytes each. */
typedef struct {
    void *at;
    size_t count, width;
    uint8_t *copy, *zone;
} numbers;

static numbers laid[SLOTS];
static size_t laid_count;
static uint8_t whole_zone[ZONE]; /* as each zone stands */

static uint8_t *slot(size_t index) {
    static uint8_t *slots[SLOTS];
    if (!slots[index]) {
        uint8_t *map = mmap(NULL, SLOT + 2 * PAGE, PROT_NONE, MAP_PRIVATE | MAP_ANONYMOUS, -1, 0);
        CHECK(map != MAP_FAILED && mprotect(map + PAGE, SLOT, PROT_READ | PROT_WRITE) == 0);
        slots[index] = map + PAGE;
    }
    return slots[index];
}

/* A buffer of at most half a slot, which no call has been given yet. */
static numbers lay(size_t count, size_t width) {
    static uint8_t copies[SLOTS][SLOT];
    if (count > SLOT / 2 / width) count = SLOT / 2 / width;
    CHECK(laid_count < SLOTS);
    uint8_t *base = slot(laid_count);
    size_t size = count * width;
    bool last = one_in(2);
    numbers made = {last ? base + SLOT - size : base, count, width, copies[laid_count], last ? base + SLOT - size - ZONE : base + size};
    memset(made.zone, KEPT, ZONE), memset(whole_zone, KEPT, ZONE);
    if (count == 0 && one_in(2)) made.at = NULL;
    return laid[laid_count++] = made;
}

static uint32_t get(numbers from, size_t index) {
    return from.width == 1 ? ((uint8_t *)from.at)[index] : from.width == 2 ? ((uint16_t *)from.at)[index] : ((uint32_t *)from.at)[index];
}

static void set(numbers to, size_t index, uint32_t value) {
    if (to.width == 1) ((uint8_t *)to.at)[index] = value;
    else if (to.width == 2) ((uint16_t *)to.at)[index] = value;
    else ((uint32_t *)to.at)[index] = value;
}

static void keep(numbers made) {
    if (made.count) memcpy(made.copy, made.at, made.count * made.width);
}

/* Numbers from 0 to `most`: all the same, a ramp, at both ends, or any. They are kept. */
static void fill(numbers made, uint32_t most) {
    uint32_t kind = below(4), start = bytes(2);
    state = bytes(2) + 0x9E3779B97F4A7C15;
    for (size_t i = 0; i < made.count; i++) {
        uint32_t value = kind == 0 ? start : kind == 1 ? start + i * 3 : kind == 2 ? (noise() & 1 ? most : 0) : noise();
        set(made, i, most == UINT32_MAX ? value : value % (most + 1));
    }
    keep(made);
}

static numbers UNUSED lay_filled(size_t count, size_t width, uint32_t most) {
    numbers made = lay(count, width);
    fill(made, most);
    return made;
}

/* Begins a call's arguments. */
static void begin(const uint8_t *data, size_t size) {
    input = data, input_end = data + size;
    laid_count = 0;
}

static void UNUSED all_kept(numbers made) {
    CHECK(made.count == 0 || memcmp(made.at, made.copy, made.count * made.width) == 0);
}

/* No buffer's zone was written to. */
static void zones_kept(void) {
    for (size_t i = 0; i < laid_count; i++) CHECK(!memcmp(laid[i].zone, whole_zone, ZONE));
}

/* Beside the first `count` all is as it was. */
static void UNUSED kept_behind(numbers made, size_t count) {
    CHECK(count <= made.count);
    CHECK(made.count == count || !memcmp((uint8_t *)made.at + count * made.width, made.copy + count * made.width, (made.count - count) * made.width));
}

/* ---- rectangles ---- */

typedef struct {
    size_t stride, x, y, width, height;
} area;

/* The place of a rectangle in rows of some stride, now and then outside of them. */
static area UNUSED some_area(size_t width, size_t height) {
    area a = {.width = width, .height = height};
    a.stride = one_in(24) ? near(width + 1) : width + near(40);
    a.x = one_in(24) ? near(a.stride + 2) : near(a.stride > width ? a.stride - width + 1 : 1);
    a.y = near(12);
    return a;
}

/* A buffer of `whole` numbers, or nearly. */
static numbers UNUSED lay_nearly(__uint128_t whole, size_t bytes_each) {
    size_t count = whole > SLOT ? below(SLOT) : whole;
    if (one_in(8)) count += below(64);
    if (one_in(24)) count -= below(count + 1 < 300 ? count + 1 : 300);
    return lay(count, bytes_each);
}

/* A buffer that such a rectangle lies in with whole rows, or nearly. */
static numbers UNUSED lay_area(area *a, size_t width, size_t height, size_t bytes_each) {
    *a = some_area(width, height);
    return lay_nearly(((__uint128_t)a->y + height) * a->stride, bytes_each);
}

/* The same, but the last row ends with the rectangle. */
static numbers UNUSED lay_ending(area *a, size_t width, size_t height, size_t bytes_each) {
    *a = some_area(width, height);
    return lay_nearly(((__uint128_t)a->y + height - 1) * a->stride + a->x + width, bytes_each);
}

static bool UNUSED is_inside(numbers made, area a) {
    return (__uint128_t)a.x + a.width <= a.stride && ((__uint128_t)a.y + a.height) * a.stride <= made.count;
}

/* The same for a rectangle whose last row may end with it. */
static bool UNUSED is_ending_inside(numbers made, area a) {
    return (__uint128_t)a.x + a.width <= a.stride && a.y <= made.count
        && ((__uint128_t)a.y + a.height - 1) * a.stride + a.x + a.width <= made.count;
}

/* The same for a rectangle that may also have no rows. */
static bool UNUSED is_held(numbers made, area a) {
    if (a.height == 0) return a.stride > 0 && (__uint128_t)a.x + a.width <= a.stride;
    return a.stride > 0 && a.height - 1 <= made.count && is_ending_inside(made, a);
}

/* Outside of the rectangle all is as it was, and in it nothing is past `most`. */
static void UNUSED only_inside(numbers made, area a, uint32_t most) {
    size_t row = made.width * a.stride, first = made.width * a.x, size = made.width * a.width, end = made.count * made.width;
    const uint8_t *now = made.at;
    size_t top = a.y * row, bottom = top + a.height * row;
    CHECK(!memcmp(now, made.copy, top) && !memcmp(now + bottom, made.copy + bottom, end - bottom));
    for (size_t y = 0, at = top; y < a.height; y++, at += row) {
        CHECK(!memcmp(now + at, made.copy + at, first));
        CHECK(!memcmp(now + at + first + size, made.copy + at + first + size, row - first - size));
        for (size_t x = 0; x < a.width; x++) CHECK(get(made, (a.y + y) * a.stride + a.x + x) <= most);
    }
}

/* The rectangle of one buffer equals the rectangle of another. */
static void UNUSED same_inside(numbers one, area a, numbers other, area b) {
    for (size_t y = 0; y < a.height; y++)
        for (size_t x = 0; x < a.width; x++)
            CHECK(get(one, (a.y + y) * a.stride + a.x + x) == get(other, (b.y + y) * b.stride + b.x + x));
}

/* ---- after a call ---- */

/* The status is one of those, as a set of bits, and no zone was written to. */
static void answered(uint32_t status, uint64_t among) {
    CHECK(status < 64 && among >> status & 1);
    zones_kept();
}

/* The sides of transforms, and of blocks, by their numbers. */
static const uint8_t UNUSED transform_sides[19][2] = {{4, 4}, {8, 8}, {16, 16}, {32, 32}, {64, 64}, {4, 8}, {8, 4}, {8, 16}, {16, 8}, {16, 32},
    {32, 16}, {32, 64}, {64, 32}, {4, 16}, {16, 4}, {8, 32}, {32, 8}, {16, 64}, {64, 16}};
static const uint8_t UNUSED block_sides[22][2] = {{4, 4}, {4, 8}, {8, 4}, {8, 8}, {8, 16}, {16, 8}, {16, 16}, {16, 32}, {32, 16}, {32, 32}, {32, 64},
    {64, 32}, {64, 64}, {64, 128}, {128, 64}, {128, 128}, {4, 16}, {16, 4}, {8, 32}, {32, 8}, {16, 64}, {64, 16}};

#endif
