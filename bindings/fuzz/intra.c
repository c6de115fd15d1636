/* Intra edges and prediction: tilg_intra_edge_8, tilg_predict_intra_8, tilg_predict_in_plane_8 and _16. */
#include "fuzz.h"

static const uint8_t angles[9] = {0, 90, 180, 45, 135, 113, 157, 203, 67};
static bool wide;

static uint32_t most(uint8_t bits) {
    return wide ? (1u << (is_depth(bits) ? bits : 8)) - 1 : 255;
}

static int8_t turn(uint8_t mode) {
    return one_in(24) ? (int8_t)byte() : 1 <= mode && mode <= 8 ? (int8_t)below(7) - 3 : 0;
}

static bool is_turn(uint8_t mode, int8_t step) {
    return -3 <= step && step <= 3 && (step == 0 || (1 <= mode && mode <= 8));
}

static bool is_depth_here(uint8_t bits) {
    return bits == 8 || (wide && is_depth(bits));
}

/* How many places of each side the block reads. */
static void read_of(const tilg_intra_block *b, size_t width, size_t height, size_t *left, size_t *above) {
    *left = height, *above = width;
    if (b->mode == 0 || b->mode == 12) *left = b->has_left ? height : 0, *above = b->has_above ? width : 0;
    if (b->mode == 0 || b->mode > 8) return;
    int angle = angles[b->mode] + 3 * b->angle_step;
    if (angle <= 90) *left = 0;
    if (angle < 90) *above = width + height;
    if (angle >= 180) *above = 0;
    if (angle > 180) *left = width + height;
}

static uint32_t expected_block(const tilg_intra_block *b, numbers samples, area a, numbers left, numbers above) {
    size_t rows, columns;
    if (b->mode > 12) return TILG_BAD_MODE;
    if (b->tx_size >= 19) return TILG_BAD_SIZE;
    if (!is_turn(b->mode, b->angle_step)) return TILG_BAD_ANGLE;
    if (!is_depth_here(b->bit_depth)) return TILG_BAD_DEPTH;
    if (!is_inside(samples, a)) return TILG_BAD_AREA;
    read_of(b, a.width, a.height, &rows, &columns);
    return left.count < rows || above.count < columns ? TILG_TOO_SHORT : TILG_DONE;
}

static uint32_t predict(numbers samples, area a, const tilg_intra_block *b, numbers left, uint16_t corner, numbers above) {
    return wide ? tilg_predict_intra_16(samples.at, samples.count, a.stride, a.x, a.y, b, left.at, left.count, corner, above.at, above.count)
                : tilg_predict_intra_8(samples.at, samples.count, a.stride, a.x, a.y, b, left.at, left.count, corner, above.at, above.count);
}

/* A block from sides that are handed in. */
static void by_sides(void) {
    tilg_intra_block b = {.mode = number(13), .tx_size = number(19), .bit_depth = wide ? depth() : one_in(24) ? byte() : 8,
                         .has_left = one_in(4) ? 0 : byte(), .has_above = one_in(4) ? 0 : byte(), .edge_filter = one_in(2) ? 0 : byte(),
                         .smooth_neighbour = one_in(2) ? 0 : byte(), .visible_columns = near(140), .visible_rows = near(140)}, told;
    b.angle_step = turn(b.mode);
    memcpy(&told, &b, sizeof b);
    const uint8_t *sides = transform_sides[b.tx_size % 19];
    area a;
    numbers samples = lay_area(&a, sides[0], sides[1], wide ? 2 : 1);
    fill(samples, wide ? 65535 : 255);
    size_t rows = 0, columns = 0;
    if (is_turn(b.mode, b.angle_step)) read_of(&b, sides[0], sides[1], &rows, &columns);
    uint32_t past = one_in(8) ? (wide ? 65535 : 255) : most(b.bit_depth);
    numbers left = lay_filled(one_in(16) ? below(130) : rows + (one_in(4) ? below(9) : 0), wide ? 2 : 1, past);
    numbers above = lay_filled(one_in(16) ? below(130) : columns + (one_in(4) ? below(9) : 0), wide ? 2 : 1, past);
    uint32_t status = predict(samples, a, &b, left, bytes(2), above);
    came_up(wide, b.mode * 7 + (b.angle_step + 3), b.tx_size * 4 + (b.edge_filter != 0) * 2 + (b.smooth_neighbour != 0), status);
    answered(status, 0 OR(DONE) OR(BAD_MODE) OR(BAD_SIZE) OR(BAD_ANGLE) OR(BAD_DEPTH) OR(BAD_AREA) OR(TOO_SHORT));
    CHECK(status == expected_block(&b, samples, a, left, above));
    all_kept(left), all_kept(above);
    CHECK(!memcmp(&b, &told, sizeof b));
    if (status == TILG_DONE) only_inside(samples, a, wide ? 65535 : 255);
    else all_kept(samples);
}

/* A plane with a tile, and a transform in it, or nearly. */
typedef struct {
    tilg_edge_plane plane;
    tilg_edge_block block;
    area whole;
    numbers samples;
} asked;

/* A place along one axis: the block's cell and the transform's unit in it, from which its place in the tile follows. */
static size_t place_along(size_t *cell, size_t *unit, size_t block, size_t side, bool halved) {
    *cell = below(20), *unit = one_in(2) ? 0 : below((block >> halved) / side + 1);
    return ((*cell >> halved) << 2) + *unit * side;
}

static asked ask(void) {
    asked q = {.plane = {.halved_columns = one_in(2), .halved_rows = one_in(2)},
               .block = {.block_size = number(22), .tx_size = number(19), .mode = one_in(24) ? byte() : one_in(12) ? TILG_ANY_MODE : below(14),
                         .bit_depth = wide ? depth() : one_in(24) ? byte() : 8, .edge_filter = one_in(3) ? 0 : byte()}};
    tilg_edge_plane *p = &q.plane;
    tilg_edge_block *b = &q.block;
    const uint8_t *sides = transform_sides[b->tx_size % 19], *block = block_sides[b->block_size % 22];
    b->angle_step = turn(b->mode);
    b->x = place_along(&b->cell_x, &b->unit_x, block[0], sides[0], p->halved_columns);
    b->y = place_along(&b->cell_y, &b->unit_y, block[1], sides[1], p->halved_rows);
    p->tile_x = one_in(2) ? 0 : near(20), p->tile_y = one_in(2) ? 0 : near(20);
    p->tile_width = b->x + 1 + near(140), p->tile_height = b->y + 1 + near(140);
    p->width = p->tile_x + p->tile_width + near(9), p->height = p->tile_y + p->tile_height + near(9);
    size_t pad = one_in(4) ? 0 : 64;
    q.samples = lay_area(&q.whole, p->width < 512 ? p->width + pad : 512, p->height < 512 ? p->height + pad : 512, wide ? 2 : 1);
    fill(q.samples, one_in(8) ? (wide ? 65535 : 255) : most(b->bit_depth));
    p->stride = q.whole.stride, p->x = q.whole.x, p->y = q.whole.y;
    if (one_in(24)) b->x = wild();
    if (one_in(24)) b->y = wild();
    if (one_in(24)) b->cell_x = wild(), b->cell_y = wild();
    if (one_in(24)) b->unit_x = wild(), b->unit_y = wild();
    return q;
}

/* Whether plane, tile and transform lie in one another, where no number is that great. */
static bool is_in_tile(const asked *q) {
    const tilg_edge_plane *p = &q->plane;
    return is_inside(q->samples, (area){p->stride, p->x, p->y, p->width, p->height}) && (__uint128_t)p->tile_x + p->tile_width <= p->width
        && (__uint128_t)p->tile_y + p->tile_height <= p->height && q->block.x < p->tile_width && q->block.y < p->tile_height;
}

static uint32_t prepare(numbers edge, const asked *q) {
    return wide ? tilg_intra_edge_16(edge.at, edge.count, q->samples.at, q->samples.count, &q->plane, &q->block)
                : tilg_intra_edge_8(edge.at, edge.count, q->samples.at, q->samples.count, &q->plane, &q->block);
}

/* The status of the numbers that are no places, as an edge is prepared. */
static uint32_t of_names(const tilg_edge_block *b) {
    if (b->mode > 13 && b->mode != TILG_ANY_MODE) return TILG_BAD_MODE;
    if (b->tx_size >= 19 || b->block_size >= 22) return TILG_BAD_SIZE;
    if (b->mode != TILG_ANY_MODE && !is_turn(b->mode, b->angle_step)) return TILG_BAD_ANGLE;
    return is_depth_here(b->bit_depth) ? TILG_DONE : TILG_BAD_DEPTH;
}

static void unchanged(const asked *q, const asked *told) {
    CHECK(!memcmp(&q->plane, &told->plane, sizeof q->plane) && !memcmp(&q->block, &told->block, sizeof q->block));
}

static void edge_alone(void) {
    asked q = ask(), told;
    memcpy(&told, &q, sizeof q);
    numbers edge = lay_filled(one_in(16) ? below(300) : TILG_EDGE_SAMPLES + (one_in(4) ? below(40) : 0), wide ? 2 : 1, wide ? 65535 : 255);
    uint32_t status = prepare(edge, &q), names = of_names(&q.block);
    came_up(2 + wide, q.block.mode * 7 + (q.block.angle_step + 3), q.block.tx_size + 19 * (q.block.block_size % 8), status);
    answered(status, 0 OR(DONE) OR(ROOM_TOO_SMALL) OR(BAD_MODE) OR(BAD_SIZE) OR(BAD_ANGLE) OR(BAD_DEPTH) OR(BAD_AREA));
    CHECK((status == TILG_ROOM_TOO_SMALL) == (edge.count < TILG_EDGE_SAMPLES));
    if (status != TILG_ROOM_TOO_SMALL) CHECK(names ? status == names : status == TILG_DONE || status == TILG_BAD_AREA);
    if (status == TILG_DONE) CHECK(is_in_tile(&q));
    all_kept(q.samples), unchanged(&q, &told);
    if (status == TILG_DONE) kept_behind(edge, TILG_EDGE_SAMPLES);
    else all_kept(edge);
}

/* The same block by two calls. */
static void by_two_calls(const asked *q, area to, uint8_t smooth, numbers ac, int16_t alpha) {
    numbers edge = lay(TILG_EDGE_SAMPLES, wide ? 2 : 1), other = lay(q->samples.count, wide ? 2 : 1);
    memcpy(other.at, q->samples.copy, other.count * other.width);
    asked again = *q;
    again.samples = other;
    CHECK(prepare(edge, &again) == TILG_DONE);
    const tilg_edge_plane *p = &q->plane;
    tilg_intra_block b = {.mode = q->block.mode, .tx_size = q->block.tx_size, .angle_step = q->block.angle_step, .bit_depth = q->block.bit_depth,
                         .has_left = q->block.x > 0, .has_above = q->block.y > 0, .edge_filter = q->block.edge_filter, .smooth_neighbour = smooth,
                         .visible_columns = p->width - p->tile_x - q->block.x, .visible_rows = p->height - p->tile_y - q->block.y};
    numbers left = edge, above = edge;
    left.count = above.count = 128;
    above.at = (uint8_t *)edge.at + 129 * edge.width;
    uint32_t status;
    if (b.mode < TILG_UV_CFL_PRED) status = predict(other, to, &b, left, get(edge, 128), above);
    else if (wide) status = tilg_predict_cfl_16(other.at, other.count, to.stride, to.x, to.y, &b, left.at, 128, above.at, 128, ac.at, ac.count, alpha);
    else status = tilg_predict_cfl_8(other.at, other.count, to.stride, to.x, to.y, &b, left.at, 128, above.at, 128, ac.at, ac.count, alpha);
    CHECK(status == TILG_DONE && !memcmp(other.at, q->samples.at, other.count * other.width));
}

static void in_plane(void) {
    asked q = ask(), told;
    memcpy(&told, &q, sizeof q);
    const uint8_t *sides = transform_sides[q.block.tx_size % 19];
    area to = {q.plane.stride, q.plane.x + q.plane.tile_x + q.block.x, q.plane.y + q.plane.tile_y + q.block.y, sides[0], sides[1]};
    size_t needed = (size_t)sides[0] * sides[1];
    numbers ac = lay_filled(q.block.mode != TILG_UV_CFL_PRED ? below(2) : one_in(16) ? needed - below(needed + 1) : needed, 2, 65535);
    uint8_t smooth = one_in(2) ? 0 : byte();
    int16_t alpha = one_in(4) ? (int16_t)bytes(2) : (int16_t)below(33) - 16;
    uint32_t status = wide ? tilg_predict_in_plane_16(q.samples.at, q.samples.count, &q.plane, &q.block, smooth, ac.at, ac.count, alpha)
                           : tilg_predict_in_plane_8(q.samples.at, q.samples.count, &q.plane, &q.block, smooth, ac.at, ac.count, alpha);
    uint32_t names = of_names(&q.block);
    came_up(4 + wide, q.block.mode * 7 + (q.block.angle_step + 3), q.block.tx_size + 19 * (q.block.block_size % 8), status);
    answered(status, 0 OR(DONE) OR(BAD_MODE) OR(BAD_SIZE) OR(BAD_ANGLE) OR(BAD_DEPTH) OR(BAD_AREA) OR(TOO_SHORT));
    /* The edge is prepared first, for which TILG_ANY_MODE is a mode. */
    uint32_t last = q.block.mode == TILG_ANY_MODE ? TILG_BAD_MODE : TILG_DONE;
    CHECK(names ? status == names : status == last || status == TILG_BAD_AREA || status == TILG_TOO_SHORT);
    if (status == TILG_TOO_SHORT) CHECK(q.block.mode == TILG_UV_CFL_PRED && ac.count < needed);
    all_kept(ac), unchanged(&q, &told);
    if (status != TILG_DONE) {
        all_kept(q.samples);
        return;
    }
    CHECK(is_in_tile(&q) && is_inside(q.samples, to));
    only_inside(q.samples, to, wide ? 65535 : 255);
    by_two_calls(&q, to, smooth, ac, alpha);
}

int LLVMFuzzerTestOneInput(const uint8_t *data, size_t length) {
    begin(data, length);
    wide = one_in(2);
    switch (below(4)) {
    case 0: by_sides(); break;
    case 1: edge_alone(); break;
    default: in_plane();
    }
    return 0;
}
