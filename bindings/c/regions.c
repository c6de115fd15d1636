/* Calls on regions: on a plane whose last row ends where memory does, on one that stands upside down, and on tiles of one plane, each of which a thread
 * works on. Each leaves what the call on the samples themselves leaves. */
#include "tilgwaren_regions.h"

#include <pthread.h>
#include <stdio.h>
#include <stdlib.h>
#include <string.h>
#include <sys/mman.h>
#include <unistd.h>

#define CHECK(e) do { if (!(e)) { fprintf(stderr, "%s:%d: %s\n", __FILE__, __LINE__, #e); exit(1); } } while (0)

enum { STRIDE = 263, COLUMNS = 256, ROWS = 64, TILES = 8, TILE = COLUMNS / TILES, FULL = STRIDE * ROWS, LEN = STRIDE * (ROWS - 1) + COLUMNS };
enum { SIDE = 64, TURNS = 20, SIZE_8X8 = TILG_TX_8X8, BLOCK_8X8 = TILG_BLOCK_8X8 };

static uint8_t reference_8[SIDE * SIDE];
static uint16_t reference_16[SIDE * SIDE];
static const int16_t few[] = {300, -70, 9};

/* Memory that ends where a page begins which nobody may touch. */
static void *before_a_page(size_t bytes) {
    size_t page = (size_t)sysconf(_SC_PAGESIZE), whole = (bytes + page - 1) / page * page;
    uint8_t *at = mmap(NULL, whole + page, PROT_READ | PROT_WRITE, MAP_PRIVATE | MAP_ANONYMOUS, -1, 0);
    CHECK(at != MAP_FAILED && mprotect(at + whole, page, PROT_NONE) == 0);
    return at + whole - bytes;
}

/* The motion, the edge and the transform of the block of 8x8 at column x of row y of a tile. */
static tilg_motion_block motion_of(size_t x, size_t y, size_t seed) {
    tilg_motion_block block = {8, 8, (uint8_t)((x + seed) % 16), (uint8_t)((y + 3 * seed) % 16), (uint8_t)(seed % 4), TILG_FILTER_SHARP};
    return block;
}

static tilg_edge_block edge_of(size_t x, size_t y, size_t seed) {
    tilg_edge_block edge = {x, y, x / 4, y / 4, 0, 0, BLOCK_8X8, SIZE_8X8, (uint8_t)((x / 8 + y / 8 + seed) % 13), 0, 8, 1};
    return edge;
}

static tilg_edge_plane tile_of(size_t number) {
    tilg_edge_plane plane = {STRIDE, 0, 0, COLUMNS, ROWS, number * TILE, 0, TILE, ROWS, 0, 0};
    return plane;
}

/* A block of 8x8 moved to a region: the call works in a buffer, which is stored. */
static tilg_status put_in(const tilg_region_8 *to, size_t x, size_t y, size_t src_x, size_t src_y, const tilg_motion_block *block) {
    uint8_t room[64];
    tilg_status status = tilg_put_8tap_8(room, 64, 8, 0, 0, reference_8, sizeof reference_8, SIDE, src_x, src_y, block);
    return status ? status : tilg_store_region_8(to, x, y, 8, 8, room, 64);
}

/* A residue added to a block of 8x8 in a region: it is loaded first. */
static tilg_status add_in(const tilg_region_8 *to, size_t x, size_t y, tilg_context *context, uint8_t size) {
    uint8_t room[64];
    tilg_read_region_8 from = {to->first, to->stride, to->width, to->height};
    tilg_status status = tilg_load_region_8(room, 64, &from, x, y, 8, 8);
    if (!status) status = tilg_inverse_transform_add_8(room, 64, 8, 0, 0, context, few, 3, size, TILG_DCT_DCT);
    return status ? status : tilg_store_region_8(to, x, y, 8, 8, room, 64);
}

/* Every block of a tile is moved, then every other one predicted, and a residue is added. */
static void work(const tilg_region_8 *tile, size_t number, size_t seed) {
    uint8_t room[129 * 129];
    tilg_context context;
    tilg_edge_plane plane = tile_of(number);
    for (size_t y = 0; y < ROWS; y += 8)
        for (size_t x = 0; x < TILE; x += 8) {
            tilg_motion_block block = motion_of(x, y, seed);
            tilg_edge_block edge = edge_of(x, y, seed);
            CHECK(put_in(tile, x, y, 3 + x, 3 + y / 2, &block) == TILG_DONE);
            if ((x + y) / 8 % 2) CHECK(tilg_predict_in_tile_8(tile, room, sizeof room, &plane, &edge, 1, NULL, 0, 0) == TILG_DONE);
            CHECK(add_in(tile, x, y, &context, SIZE_8X8) == TILG_DONE);
        }
}

/* The same by calls on all samples of the plane. */
static void work_on_samples(uint8_t *samples, size_t number, size_t seed) {
    tilg_context context;
    tilg_edge_plane plane = tile_of(number);
    for (size_t y = 0; y < ROWS; y += 8)
        for (size_t x = 0; x < TILE; x += 8) {
            size_t column = number * TILE + x;
            tilg_motion_block block = motion_of(x, y, seed);
            tilg_edge_block edge = edge_of(x, y, seed);
            CHECK(tilg_put_8tap_8(samples, FULL, STRIDE, column, y, reference_8, sizeof reference_8, SIDE, 3 + x, 3 + y / 2, &block) == TILG_DONE);
            if ((x + y) / 8 % 2) CHECK(tilg_predict_in_plane_8(samples, FULL, &plane, &edge, 1, NULL, 0, 0) == TILG_DONE);
            CHECK(tilg_inverse_transform_add_8(samples, FULL, STRIDE, column, y, &context, few, 3, SIZE_8X8, 0) == TILG_DONE);
        }
}

/* A plane that each tile was worked on by calls on all samples. */
static void expect(uint8_t *samples) {
    memset(samples, 77, FULL);
    for (size_t tile = 0; tile < TILES; tile++)
        for (size_t turn = 0; turn < TURNS; turn++) work_on_samples(samples, tile, turn + tile);
}

struct tile {
    tilg_region_8 region;
    size_t number;
};

static void *work_by_turns(void *told) {
    const struct tile *tile = told;
    for (size_t turn = 0; turn < TURNS; turn++) work(&tile->region, tile->number, turn + tile->number);
    return NULL;
}

/* Eight threads, each on its own tile of one plane. The samples behind each row are nobody's, and stay. */
static void work_by_threads(uint8_t *first, ptrdiff_t stride) {
    pthread_t threads[TILES];
    struct tile tiles[TILES];
    for (size_t i = 0; i < TILES; i++) {
        tiles[i].region = (tilg_region_8){first + i * TILE, stride, TILE, ROWS};
        tiles[i].number = i;
        CHECK(pthread_create(&threads[i], NULL, work_by_turns, &tiles[i]) == 0);
    }
    for (size_t i = 0; i < TILES; i++) CHECK(pthread_join(threads[i], NULL) == 0);
}

static void tiles_of_one_plane(void) {
    uint8_t *samples = before_a_page(LEN), expected[FULL];
    memset(samples, 77, LEN);
    work_by_threads(samples, STRIDE);
    expect(expected);
    CHECK(memcmp(samples, expected, LEN) == 0);
}

static void a_plane_upside_down(void) {
    uint8_t *samples = before_a_page(LEN), expected[FULL];
    memset(samples, 77, LEN);
    work_by_threads(samples + (ROWS - 1) * STRIDE, -STRIDE);
    expect(expected);
    for (size_t y = 0; y < ROWS; y++) CHECK(memcmp(samples + (ROWS - 1 - y) * STRIDE, expected + y * STRIDE, COLUMNS) == 0);
    for (size_t y = 0; y < ROWS - 1; y++)
        for (size_t x = COLUMNS; x < STRIDE; x++) CHECK(samples[y * STRIDE + x] == 77);
}

/* What a block reads of a reference that stands upside down is loaded, and is the same as in one that stands upright. */
static void a_reference_upside_down(void) {
    static uint8_t flipped[SIDE * SIDE];
    uint8_t window[15 * 15], one[64], other[64];
    tilg_read_region_8 region = {flipped + (SIDE - 1) * SIDE, -SIDE, SIDE, SIDE};
    tilg_motion_block block = motion_of(3, 5, 2);
    for (size_t y = 0; y < SIDE; y++) memcpy(flipped + y * SIDE, reference_8 + (SIDE - 1 - y) * SIDE, SIDE);
    CHECK(tilg_load_region_8(window, sizeof window, &region, SIDE - 15, SIDE - 15, 15, 15) == TILG_DONE);
    CHECK(tilg_put_8tap_8(one, 64, 8, 0, 0, window, sizeof window, 15, 3, 3, &block) == TILG_DONE);
    CHECK(tilg_put_8tap_8(other, 64, 8, 0, 0, reference_8, sizeof reference_8, SIDE, SIDE - 12, SIDE - 12, &block) == TILG_DONE);
    CHECK(memcmp(one, other, 64) == 0);
}

/* Rectangles of 16 bits: what is stored is what was loaded, and a transform is predicted in a tile as in its plane. */
static void samples_of_16_bits(void) {
    uint16_t *samples = before_a_page(2 * LEN), expected[FULL], room[129 * 129];
    tilg_region_16 region = {samples, STRIDE, COLUMNS, ROWS};
    tilg_read_region_16 from = {samples, STRIDE, COLUMNS, ROWS};
    tilg_edge_plane tile = {STRIDE, 0, 0, COLUMNS, ROWS, 0, 0, COLUMNS, ROWS, 0, 0};
    tilg_edge_block edge = edge_of(8, 8, 4);
    for (size_t i = 0; i < LEN; i++) samples[i] = expected[i] = (uint16_t)(i % 1021);
    edge.bit_depth = 10;
    CHECK(tilg_predict_in_tile_16(&region, room, 129 * 129, &tile, &edge, 0, NULL, 0, 0) == TILG_DONE);
    CHECK(tilg_predict_in_plane_16(expected, FULL, &tile, &edge, 0, NULL, 0, 0) == TILG_DONE);
    CHECK(tilg_load_region_16(room, 64, &from, 248, 56, 8, 8) == TILG_DONE);
    for (size_t i = 0; i < 64; i++) CHECK(room[i] == expected[(56 + i / 8) * STRIDE + 248 + i % 8]);
    CHECK(tilg_store_region_16(&region, 240, 56, 8, 8, room, 64) == TILG_DONE);
    for (size_t i = 0; i < 64; i++) expected[(56 + i / 8) * STRIDE + 240 + i % 8] = room[i];
    CHECK(memcmp(samples, expected, 2 * LEN) == 0);
}

/* A transform in every place of a tile, by every mode, size and way in which the plane ends with it: its window is as good as the plane. */
static void transforms_in_tiles(void) {
    static const struct { uint8_t size, block; } each[] = {{0, 0}, {1, 3}, {2, 6}, {5, 1}, {6, 2}, {13, 16}, {14, 17}, {8, 5}};
    uint8_t samples[48 * 48], expected[48 * 48], room[129 * 129];
    for (size_t i = 0; i < sizeof samples; i++) samples[i] = (uint8_t)(i * 37 + i / 48 * 11);
    for (size_t k = 0; k < sizeof each / sizeof each[0]; k++)
        for (size_t ends = 0; ends < 4; ends++)
            for (size_t y = 0; y < 16; y += 4)
                for (size_t x = 0; x < 16; x += 4)
                    for (uint8_t mode = 0; mode < 13; mode++) {
                        size_t tile_width = ends % 2 ? 18 : 20;
                        tilg_edge_plane plane = {48, 0, 0, ends % 2 ? 22 : 40, ends / 2 ? 26 : 40, 4, 8, tile_width, 18, 0, 0};
                        tilg_edge_block edge = {x, y, x / 4, y / 4, 0, 0, each[k].block, each[k].size, mode, (int8_t)(mode && mode < 9 ? k % 3 - 1 : 0), 8, 1};
                        tilg_region_8 tile = {samples + 8 * 48 + 4, 48, 36, 36};
                        memcpy(expected, samples, sizeof samples);
                        uint32_t status = tilg_predict_in_plane_8(expected, sizeof expected, &plane, &edge, 1, NULL, 0, 0);
                        CHECK(tilg_predict_in_tile_8(&tile, room, sizeof room, &plane, &edge, 1, NULL, 0, 0) == status);
                        CHECK(memcmp(samples, expected, sizeof samples) == 0);
                    }
}

/* What is refused leaves the region as it was, and what lies beside a rectangle always stays. */
static void refused_calls(void) {
    uint8_t *samples = before_a_page(LEN), room[64];
    tilg_context context;
    tilg_region_8 region = {samples, STRIDE, COLUMNS, ROWS};
    tilg_read_region_8 read = {samples, STRIDE, COLUMNS, ROWS};
    tilg_motion_block block = motion_of(0, 0, 0), bad = block;
    bad.filter_y = 4;
    memset(samples, 77, LEN), memset(room, 5, 64);
    CHECK(put_in(&region, 249, 0, 3, 3, &block) == TILG_BAD_AREA);
    CHECK(put_in(&region, 0, SIZE_MAX, 3, 3, &block) == TILG_BAD_AREA);
    CHECK(put_in(&region, 0, 0, 3, 3, &bad) == TILG_BAD_MODE);
    CHECK(add_in(&region, 0, 57, &context, SIZE_8X8) == TILG_BAD_AREA);
    CHECK(add_in(&region, 0, 0, &context, 19) == TILG_BAD_SIZE);
    CHECK(tilg_store_region_8(&region, 0, 0, 8, 9, room, 64) == TILG_TOO_SHORT);
    CHECK(tilg_store_region_8(&region, 0, 0, 1, SIZE_MAX, room, 64) == TILG_BAD_AREA);
    CHECK(tilg_load_region_8(room, 64, &read, 0, 0, 8, 9) == TILG_TOO_SHORT);
    CHECK(tilg_load_region_8(room, 64, &read, 256, 64, 1, 0) == TILG_BAD_AREA);
    CHECK(tilg_load_region_8(NULL, 0, &read, 256, 64, 0, 0) == TILG_DONE);
    for (size_t i = 0; i < LEN; i++) CHECK(samples[i] == 77);
    CHECK(tilg_store_region_8(&region, 253, 63, 3, 1, room, 3) == TILG_DONE);
    for (size_t i = 0; i < LEN; i++) CHECK(samples[i] == (i >= LEN - 3 ? 5 : 77));
}

int main(void) {
    for (size_t i = 0; i < SIDE * SIDE; i++) reference_8[i] = (uint8_t)(i * 7 + i / SIDE), reference_16[i] = (uint16_t)(i * 29 % 1024);
    tiles_of_one_plane();
    a_plane_upside_down();
    a_reference_upside_down();
    samples_of_16_bits();
    transforms_in_tiles();
    refused_calls();
    return 0;
}
