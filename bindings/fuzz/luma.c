/* Chroma from luma: tilg_cfl_ac_8 and tilg_cfl_ac_tested_16, tilg_predict_cfl_8 and _16, and tilg_cfl_block_of. */
#include "fuzz.h"

static bool wide;
static uint8_t bits;

static uint32_t most(void) {
    return wide ? (1u << (is_depth(bits) ? bits : 8)) - 1 : 255;
}

/* How many columns, or rows, of luma are read for a side of chroma. */
static size_t read_for(size_t side, size_t pad, size_t halved) {
    size_t coded = (side - 4 * pad) << halved;
    if (coded < 8) coded = 8;
    return coded < side << halved ? coded : side << halved;
}

static bool is_chroma(uint8_t size) {
    return size < 22 && block_sides[size][0] <= 32 && block_sides[size][1] <= 32;
}

static uint32_t expected_differences(numbers ac, numbers luma, area a, const tilg_cfl_block *b) {
    if (!is_chroma(b->block_size)) return TILG_BAD_SIZE;
    if (b->halved_columns > 1 || b->halved_rows > b->halved_columns) return TILG_BAD_SAMPLING;
    size_t w = block_sides[b->block_size][0], h = block_sides[b->block_size][1];
    if (b->w_pad >= w / 4 || b->h_pad >= h / 4) return TILG_BAD_PAD;
    a.width = read_for(w, b->w_pad, b->halved_columns), a.height = read_for(h, b->h_pad, b->halved_rows);
    if (!is_inside(luma, a)) return TILG_BAD_AREA;
    return ac.count < w * h ? TILG_TOO_SHORT : TILG_DONE;
}

static void differences(void) {
    static const uint8_t sizes[] = {0, 1, 2, 3, 4, 5, 6, 7, 8, 9, 16, 17, 18, 19};
    uint8_t named = sizes[below(sizeof sizes)];
    size_t w = block_sides[named][0], h = block_sides[named][1];
    uint8_t sampling = below(3);
    tilg_cfl_block b = {one_in(24) ? byte() : named, sampling > 0, sampling == 2, near(w / 4), near(h / 4)}, told;
    if (one_in(24)) b.halved_columns = byte(), b.halved_rows = byte();
    memcpy(&told, &b, sizeof b);
    area a;
    numbers luma = lay_area(&a, read_for(w, b.w_pad < w / 4 ? b.w_pad : 0, sampling > 0), read_for(h, b.h_pad < h / 4 ? b.h_pad : 0, sampling == 2),
                            wide ? 2 : 1);
    fill(luma, wide ? 4095 : 255);
    numbers ac = lay_filled(one_in(8) ? w * h + below(64) : one_in(24) ? w * h - below(w * h + 1) : w * h, 2, 65535);
    uint32_t status = wide ? tilg_cfl_ac_tested_16(ac.at, ac.count, luma.at, luma.count, a.stride, a.x, a.y, &b)
                           : tilg_cfl_ac_8(ac.at, ac.count, luma.at, luma.count, a.stride, a.x, a.y, &b);
    came_up(wide, b.block_size, sampling * 64 + b.w_pad * 8 + b.h_pad, status);
    answered(status, 0 OR(DONE) OR(BAD_SIZE) OR(BAD_SAMPLING) OR(BAD_PAD) OR(BAD_AREA) OR(TOO_SHORT));
    CHECK(status == expected_differences(ac, luma, a, &b));
    all_kept(luma);
    CHECK(!memcmp(&b, &told, sizeof b));
    if (status != TILG_DONE) {
        all_kept(ac);
        return;
    }
    w = block_sides[b.block_size][0], h = block_sides[b.block_size][1];
    kept_behind(ac, w * h);
    long sum = 0;
    for (size_t i = 0; i < w * h; i++) sum += ((int16_t *)ac.at)[i];
    CHECK(-(long)(w * h) <= 2 * sum && 2 * sum <= (long)(w * h));
}

static uint32_t expected_chroma(const tilg_intra_block *b, numbers samples, area a, numbers left, numbers above, numbers ac) {
    if (b->tx_size >= 19) return TILG_BAD_SIZE;
    if (b->angle_step) return TILG_BAD_ANGLE;
    if (b->bit_depth != 8 && !(wide && is_depth(b->bit_depth))) return TILG_BAD_DEPTH;
    if (!is_inside(samples, a)) return TILG_BAD_AREA;
    size_t rows = b->has_left ? a.height : 0, columns = b->has_above ? a.width : 0;
    return left.count < rows || above.count < columns || ac.count < a.width * a.height ? TILG_TOO_SHORT : TILG_DONE;
}

static void chroma(void) {
    tilg_intra_block b = {byte(), number(19), one_in(24) ? byte() : 0, wide ? depth() : one_in(24) ? byte() : 8, one_in(4) ? 0 : byte(),
                         one_in(4) ? 0 : byte(), byte(), byte(), wild(), wild()}, told;
    memcpy(&told, &b, sizeof b);
    const uint8_t *sides = transform_sides[b.tx_size % 19];
    bits = b.bit_depth;
    area a;
    numbers samples = lay_area(&a, sides[0], sides[1], wide ? 2 : 1);
    fill(samples, wide ? 65535 : 255);
    numbers left = lay_filled(one_in(16) ? below(130) : sides[1], wide ? 2 : 1, most());
    numbers above = lay_filled(one_in(16) ? below(130) : sides[0], wide ? 2 : 1, most());
    size_t needed = (size_t)sides[0] * sides[1];
    numbers ac = lay_filled(one_in(24) ? needed - below(needed + 1) : needed, 2, 65535);
    int16_t alpha = one_in(4) ? (int16_t)bytes(2) : (int16_t)below(33) - 16;
    uint32_t status = wide ? tilg_predict_cfl_16(samples.at, samples.count, a.stride, a.x, a.y, &b, left.at, left.count, above.at, above.count, ac.at,
                                                ac.count, alpha)
                           : tilg_predict_cfl_8(samples.at, samples.count, a.stride, a.x, a.y, &b, left.at, left.count, above.at, above.count, ac.at,
                                               ac.count, alpha);
    came_up(2 + wide, b.tx_size, (b.has_left != 0) * 2 + (b.has_above != 0) + 4 * (alpha < 0), status);
    answered(status, 0 OR(DONE) OR(BAD_SIZE) OR(BAD_ANGLE) OR(BAD_DEPTH) OR(BAD_AREA) OR(TOO_SHORT));
    CHECK(status == expected_chroma(&b, samples, a, left, above, ac));
    all_kept(left), all_kept(above), all_kept(ac);
    CHECK(!memcmp(&b, &told, sizeof b));
    if (status == TILG_DONE) only_inside(samples, a, most());
    else all_kept(samples);
}

/* How many units of 4 samples of chroma no transform codes that begins in the visible plane, along a dimension. */
static size_t pad_of(size_t side, size_t transform, size_t visible, size_t halved) {
    size_t shown = side < visible ? side : visible, coded = side <= 8 ? side : (shown + transform - 1) / transform * transform;
    return coded < side ? (side - coded) / (4 << halved) : 0;
}

static uint32_t expected_found(const tilg_luma_block *b, tilg_cfl_block *chroma) {
    if (b->halved_columns > 1 || b->halved_rows > b->halved_columns) return TILG_BAD_SAMPLING;
    if (b->block_size >= 22 || b->tx_size >= 19) return TILG_BAD_SIZE;
    const uint8_t *luma = block_sides[b->block_size], *transform = transform_sides[b->tx_size];
    uint8_t w = luma[0] >> b->halved_columns, h = luma[1] >> b->halved_rows, size = 0;
    if (b->halved_columns && !b->halved_rows && luma[1] > luma[0]) return TILG_BAD_SIZE;
    while (size < 22 && (block_sides[size][0] != (w < 4 ? 4 : w) || block_sides[size][1] != (h < 4 ? 4 : h))) size++;
    if (!is_chroma(size)) return TILG_BAD_SIZE;
    if (!b->visible_columns || !b->visible_rows) return TILG_BAD_PAD;
    chroma->block_size = size, chroma->halved_columns = b->halved_columns, chroma->halved_rows = b->halved_rows;
    chroma->w_pad = pad_of(luma[0], transform[0], b->visible_columns, b->halved_columns);
    chroma->h_pad = pad_of(luma[1], transform[1], b->visible_rows, b->halved_rows);
    return TILG_DONE;
}

static void found(void) {
    uint8_t sampling = below(3);
    tilg_luma_block b = {number(22), number(19), sampling > 0, sampling == 2, near(140), near(140)}, told;
    if (one_in(24)) b.halved_columns = byte(), b.halved_rows = byte();
    memcpy(&told, &b, sizeof b);
    tilg_cfl_block block, expected;
    memset(&block, byte(), sizeof block);
    memcpy(&expected, &block, sizeof block);
    uint32_t status = tilg_cfl_block_of(&block, &b);
    came_up(4, b.block_size, b.tx_size * 4 + sampling, status);
    CHECK(status == expected_found(&b, &expected));
    CHECK(!memcmp(&b, &told, sizeof b));
    CHECK(block.block_size == expected.block_size && block.halved_columns == expected.halved_columns && block.halved_rows == expected.halved_rows);
    CHECK(block.w_pad == expected.w_pad && block.h_pad == expected.h_pad);
}

int LLVMFuzzerTestOneInput(const uint8_t *data, size_t length) {
    begin(data, length);
    wide = one_in(2);
    bits = wide ? one_in(40) ? wild() : depth() : 8;
    size_t call = below(256);
    if (call >= 128) differences();
    else if (call >= 16) chroma();
    else found();
    return 0;
}
