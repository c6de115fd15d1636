/* Regions: rectangles of a plane, without what lies between their rows. These functions are C: they copy, and call
 * the proved calls of tilgwaren.h.
 *
 * Threads that work on tiles of one plane can't use the calls of tilgwaren.h on it: such a call is given all samples
 * from the first row of a rectangle to the last, with the neighbours' samples between the rows. A region has only
 * its own samples. To make a call on a region, load the rectangle that the call reads to a buffer, make the call
 * there, and store what it wrote:
 *
 *     uint8_t block[64 * 64];
 *     tilg_status status = tilg_load_region_8(block, sizeof block, &from, x, y, 64, 64);
 *     if (!status) status = tilg_inverse_transform_add_8(block, sizeof block, 64, 0, 0, &context, ..);
 *     if (!status) status = tilg_store_region_8(&region, x, y, 64, 64, block, sizeof block);
 */
#ifndef TILGWAREN_REGIONS_H
#define TILGWAREN_REGIONS_H

#include "tilgwaren.h"

#include <string.h>

#ifdef __cplusplus
extern "C" {
#endif

/* A rectangle of a plane. The rows of a region that is written must not overlap. */
typedef struct {
    uint8_t *first;   /* the first sample of its first row */
    ptrdiff_t stride; /* how many samples after the start of a row the next row starts; it may be negative */
    size_t width;     /* how many columns it has */
    size_t height;    /* how many rows it has; the last row may end with its own samples */
} tilg_region_8;
typedef struct {
    uint16_t *first;
    ptrdiff_t stride;
    size_t width;
    size_t height;
} tilg_region_16;
/* The same, only to read. */
typedef struct {
    const uint8_t *first;
    ptrdiff_t stride;
    size_t width;
    size_t height;
} tilg_read_region_8;
typedef struct {
    const uint16_t *first;
    ptrdiff_t stride;
    size_t width;
    size_t height;
} tilg_read_region_16;

/* Whether a rectangle lies inside `columns` columns and `rows` rows. */
static inline int tilg_lies_within(size_t columns, size_t rows, size_t x, size_t y, size_t width, size_t height) {
    return x <= columns && width <= columns - x && y <= rows && height <= rows - y;
}

/* Whether `width` by `height` samples lie in a buffer of `len`. */
static inline int tilg_fits(size_t len, size_t width, size_t height) { return width == 0 || height <= len / width; }

/* Copies a rectangle of a region, `width` by `height` samples at column `x` of row `y`, to the front
 * of `block`, row by row. The rest of `block` is unchanged.
 * Returns TILG_DONE, TILG_BAD_AREA (the rectangle does not lie in the region) or TILG_TOO_SHORT (the block). */
TILG_MUST_USE static inline tilg_status tilg_load_region_8(uint8_t *block, size_t block_len, const tilg_read_region_8 *region, size_t x, size_t y,
                                                           size_t width, size_t height) {
    if (!tilg_lies_within(region->width, region->height, x, y, width, height)) return TILG_BAD_AREA;
    if (!tilg_fits(block_len, width, height)) return TILG_TOO_SHORT;
    for (size_t row = 0; width > 0 && row < height; row++)
        memcpy(block + row * width, region->first + (ptrdiff_t)(y + row) * region->stride + (ptrdiff_t)x, width);
    return TILG_DONE;
}
TILG_MUST_USE static inline tilg_status tilg_load_region_16(uint16_t *block, size_t block_len, const tilg_read_region_16 *region, size_t x,
                                                            size_t y, size_t width, size_t height) {
    if (!tilg_lies_within(region->width, region->height, x, y, width, height)) return TILG_BAD_AREA;
    if (!tilg_fits(block_len, width, height)) return TILG_TOO_SHORT;
    for (size_t row = 0; width > 0 && row < height; row++)
        memcpy(block + row * width, region->first + (ptrdiff_t)(y + row) * region->stride + (ptrdiff_t)x, width * sizeof *block);
    return TILG_DONE;
}

/* Copies the front of `block` to such a rectangle. No other sample is read or written. Returns the same statuses. */
TILG_MUST_USE static inline tilg_status tilg_store_region_8(const tilg_region_8 *region, size_t x, size_t y, size_t width, size_t height,
                                                            const uint8_t *block, size_t block_len) {
    if (!tilg_lies_within(region->width, region->height, x, y, width, height)) return TILG_BAD_AREA;
    if (!tilg_fits(block_len, width, height)) return TILG_TOO_SHORT;
    for (size_t row = 0; width > 0 && row < height; row++)
        memcpy(region->first + (ptrdiff_t)(y + row) * region->stride + (ptrdiff_t)x, block + row * width, width);
    return TILG_DONE;
}
TILG_MUST_USE static inline tilg_status tilg_store_region_16(const tilg_region_16 *region, size_t x, size_t y, size_t width, size_t height,
                                                             const uint16_t *block, size_t block_len) {
    if (!tilg_lies_within(region->width, region->height, x, y, width, height)) return TILG_BAD_AREA;
    if (!tilg_fits(block_len, width, height)) return TILG_TOO_SHORT;
    for (size_t row = 0; width > 0 && row < height; row++)
        memcpy(region->first + (ptrdiff_t)(y + row) * region->stride + (ptrdiff_t)x, block + row * width, width * sizeof *block);
    return TILG_DONE;
}

static inline size_t tilg_least(size_t a, size_t b) { return a < b ? a : b; }

/* Width and height of a transform by its tilg_tx_size; 0 if the number does not exist. */
static inline size_t tilg_tx_width(uint8_t tx_size) {
    static const uint8_t widths[] = {4, 8, 16, 32, 64, 4, 8, 8, 16, 16, 32, 32, 64, 4, 16, 8, 32, 16, 64};
    return tx_size < sizeof widths ? widths[tx_size] : 0;
}
static inline size_t tilg_tx_height(uint8_t tx_size) {
    static const uint8_t heights[] = {4, 8, 16, 32, 64, 8, 4, 16, 8, 32, 16, 64, 32, 16, 4, 32, 8, 64, 16};
    return tx_size < sizeof heights ? heights[tx_size] : 0;
}

/* tilg_predict_in_plane_8 in a tile that is a region, whose first sample is the tile's. The region must
 * have all columns and rows of the tile and of the transform. The call reads the samples around the
 * transform that its edge needs, and writes those of the transform.
 *   room, room_len   a buffer for both: 16,641 samples for any transform
 *   plane            its stride, x and y are not read
 *   block .. alpha   as in that call
 * Returns the statuses of that call, but checks for TILG_BAD_AREA before everything else. TILG_TOO_SHORT
 * also says that `room` is too short. After an error the region is unchanged. */
TILG_MUST_USE static inline tilg_status tilg_predict_in_tile_8(const tilg_region_8 *tile, uint8_t *room, size_t room_len,
                                                               const tilg_edge_plane *plane, const tilg_edge_block *block,
                                                               uint8_t smooth_neighbour, const int16_t *ac, size_t ac_len, int16_t alpha) {
    size_t width = tilg_tx_width(block->tx_size), height = tilg_tx_height(block->tx_size), more = tilg_least(width, height);
    size_t left = block->x > 0, above = block->y > 0, x = block->x - left, y = block->y - above;
    size_t columns = left + width + more, rows = above + height + more;
    tilg_read_region_8 from = {tile->first, tile->stride, tile->width, tile->height};
    tilg_edge_plane window = *plane;
    tilg_edge_block moved = *block;
    tilg_status status = TILG_DONE;
    if (!tilg_lies_within(plane->width, plane->height, plane->tile_x, plane->tile_y, plane->tile_width, plane->tile_height)) return TILG_BAD_AREA;
    if (block->x >= plane->tile_width || block->y >= plane->tile_height) return TILG_BAD_AREA;
    if (!tilg_lies_within(tile->width, tile->height, block->x, block->y, width, height)) return TILG_BAD_AREA;
    if (columns * rows > room_len) return TILG_TOO_SHORT;
    for (size_t row = 0; !status && row < tilg_least(rows, tile->height - y); row++)
        status = tilg_load_region_8(room + row * columns, columns, &from, x, y + row, tilg_least(columns, tile->width - x), 1);
    window.stride = columns;
    window.x = window.y = window.tile_x = window.tile_y = 0;
    window.width = tilg_least(columns, plane->width - plane->tile_x - x);
    window.height = tilg_least(rows, plane->height - plane->tile_y - y);
    window.tile_width = tilg_least(columns, plane->tile_width - x);
    window.tile_height = tilg_least(rows, plane->tile_height - y);
    moved.x = left;
    moved.y = above;
    if (!status) status = tilg_predict_in_plane_8(room, columns * rows, &window, &moved, smooth_neighbour, ac, ac_len, alpha);
    for (size_t row = 0; !status && row < height; row++)
        status = tilg_store_region_8(tile, block->x, block->y + row, width, 1, room + (above + row) * columns + left, width);
    return status;
}
TILG_MUST_USE static inline tilg_status tilg_predict_in_tile_16(const tilg_region_16 *tile, uint16_t *room, size_t room_len,
                                                                const tilg_edge_plane *plane, const tilg_edge_block *block,
                                                                uint8_t smooth_neighbour, const int16_t *ac, size_t ac_len, int16_t alpha) {
    size_t width = tilg_tx_width(block->tx_size), height = tilg_tx_height(block->tx_size), more = tilg_least(width, height);
    size_t left = block->x > 0, above = block->y > 0, x = block->x - left, y = block->y - above;
    size_t columns = left + width + more, rows = above + height + more;
    tilg_read_region_16 from = {tile->first, tile->stride, tile->width, tile->height};
    tilg_edge_plane window = *plane;
    tilg_edge_block moved = *block;
    tilg_status status = TILG_DONE;
    if (!tilg_lies_within(plane->width, plane->height, plane->tile_x, plane->tile_y, plane->tile_width, plane->tile_height)) return TILG_BAD_AREA;
    if (block->x >= plane->tile_width || block->y >= plane->tile_height) return TILG_BAD_AREA;
    if (!tilg_lies_within(tile->width, tile->height, block->x, block->y, width, height)) return TILG_BAD_AREA;
    if (columns * rows > room_len) return TILG_TOO_SHORT;
    for (size_t row = 0; !status && row < tilg_least(rows, tile->height - y); row++)
        status = tilg_load_region_16(room + row * columns, columns, &from, x, y + row, tilg_least(columns, tile->width - x), 1);
    window.stride = columns;
    window.x = window.y = window.tile_x = window.tile_y = 0;
    window.width = tilg_least(columns, plane->width - plane->tile_x - x);
    window.height = tilg_least(rows, plane->height - plane->tile_y - y);
    window.tile_width = tilg_least(columns, plane->tile_width - x);
    window.tile_height = tilg_least(rows, plane->tile_height - y);
    moved.x = left;
    moved.y = above;
    if (!status) status = tilg_predict_in_plane_16(room, columns * rows, &window, &moved, smooth_neighbour, ac, ac_len, alpha);
    for (size_t row = 0; !status && row < height; row++)
        status = tilg_store_region_16(tile, block->x, block->y + row, width, 1, room + (above + row) * columns + left, width);
    return status;
}

#ifdef __cplusplus
}
#endif

#endif
