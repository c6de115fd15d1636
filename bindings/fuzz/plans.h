/* What the targets `plan`, `sequence` and `builder` share: the fields of plans, from the fuzzer's bytes, plans that a builder makes of these, and bytes that
 * hold plans as parts. */
#ifndef PLANS_H
#define PLANS_H

#include "fuzz.h"

enum { HEADER = 20, MOST_SIDE = 72 };

/* As many luma samples as whole blocks of 8 have, of which up to 7 of the last one may be missing in version 3. */
static uint16_t side_of(uint8_t drawn, uint8_t version) {
    return 8 + 8 * (drawn % 9) - (version == 3 ? drawn / 9 % 8 : 0);
}

/* A frame of at most 72x72 samples, with few references. */
static tilg_plan_header drawn_header(void) {
    uint8_t width = byte(), height = byte(), version = 1 + below(3);
    tilg_plan_header header = {.width = side_of(width, version), .height = side_of(height, version), .version = version, .bit_depth = depth(),
                              .sampling = number(3), .filter = number(4), .edge_filter = one_in(4) ? 0 : byte()};
    if (one_in(2)) header.mask = 1u << below(8);
    if (one_in(8)) header.mask |= 1u << below(8);
    for (int i = 0; i < 7; i++) header.slots[i] = one_in(2) && header.mask ? (uint8_t)__builtin_ctz(header.mask) : number(8);
    if (one_in(40)) header.width = bytes(2), header.height = bytes(2);
    return header;
}

/* How many samples each plane of a frame has: half of an odd side is rounded up. */
static void plane_samples(const tilg_plan_header *header, size_t samples[3]) {
    size_t w = header->width, h = header->height;
    samples[0] = w * h;
    samples[1] = samples[2] = (header->sampling == 2 ? w : (w + 1) / 2) * (header->sampling == 0 ? (h + 1) / 2 : h);
}

/* How many bytes the planes of a frame have, by what plans and sequences alike say of it behind their letters. */
static size_t UNUSED frame_bytes(const uint8_t *fields) {
    tilg_plan_header header = {.width = fields[0] | fields[1] << 8, .height = fields[2] | fields[3] << 8, .bit_depth = fields[4], .sampling = fields[5]};
    size_t samples[3];
    plane_samples(&header, samples);
    return (header.bit_depth > 8 ? 2 : 1) * (samples[0] + samples[1] + samples[2]);
}

/* The leaf that is asked for, mostly one that a plan can have. */
static tilg_leaf drawn_leaf(const tilg_builder *builder, uint8_t size) {
    tilg_leaf leaf = {.has_chroma = 1};
    const uint8_t *sides = block_sides[size % 22];
    leaf.mode = one_in(24) ? byte() : builder->header.mask && one_in(2) ? 14 + below(20) : below(13);
    if (1 <= leaf.mode && leaf.mode <= 8) leaf.angle_step = (int8_t)below(7) - 3;
    if (leaf.mode < 14) leaf.chroma_mode = below(14);
    if (1 <= leaf.chroma_mode && leaf.chroma_mode <= 8) leaf.chroma_angle_step = (int8_t)below(7) - 3;
    if (leaf.chroma_mode == 13) leaf.alpha_u = (int8_t)below(33) - 16, leaf.alpha_v = (int8_t)below(33) - 16;
    if (leaf.mode >= 14) leaf.first = (tilg_motion){bytes(2), bytes(2), 1 + number(7)};
    if (leaf.mode >= 20) leaf.second = (tilg_motion){bytes(2), bytes(2), 1 + number(7)};
    if (one_in(2)) leaf.first.mv_y %= 64, leaf.first.mv_x %= 64, leaf.second.mv_y %= 64, leaf.second.mv_x %= 64;
    for (uint8_t i = 0; i < 19; i++)
        if (transform_sides[i][0] == sides[0] && transform_sides[i][1] == sides[1]) leaf.tx_size = i;
    if (one_in(4)) leaf.tx_size = number(19);
    leaf.tx_type = one_in(2) ? 0 : number(17), leaf.chroma_tx_type = one_in(2) ? 0 : number(17);
    return leaf;
}

static tilg_leaf without_chroma(tilg_leaf leaf) {
    leaf.has_chroma = leaf.chroma_mode = leaf.chroma_tx_type = 0, leaf.chroma_angle_step = leaf.alpha_u = leaf.alpha_v = 0;
    return leaf;
}

/* Few coefficients, mostly in order. */
static size_t drawn_coefficients(tilg_coefficient *to, size_t most) {
    size_t count = one_in(2) ? 0 : below(most + 1), place = 0;
    for (size_t i = 0; i < count; i++) {
        place += 1 + below(one_in(4) ? 40 : 3);
        to[i] = (tilg_coefficient){one_in(8) ? (int32_t)bytes(4) : (int16_t)bytes(2) >> below(12), place - 1, one_in(16) ? byte() : 0};
    }
    return count;
}

/* The size of the leaf that is asked for, or another. */
static uint8_t asked_size(const tilg_builder *builder) {
    return builder->count && builder->count <= 13 ? builder->parts[builder->count - 1].number : 0;
}

/* ---- a plan by a builder, whose calls are looked at by another target */

/* Begins a plan in the room, and gives all of its references the same planes. */
static bool UNUSED begun_plan(const tilg_plan_header *header, tilg_builder *builder, uint8_t *room, size_t room_len) {
    static uint16_t flat[MOST_SIDE * MOST_SIDE];
    size_t samples[3];
    plane_samples(header, samples);
    for (size_t i = 0, start = byte(); i < MOST_SIDE * MOST_SIDE; i++) flat[i] = (start + i * 7) & 255;
    memset(builder, 0, sizeof *builder);
    if (tilg_builder_begin(builder, room, room_len, header) != TILG_DONE || samples[0] > MOST_SIDE * MOST_SIDE) return false;
    while (builder->slot < 8)
        if (tilg_builder_reference(builder, room, room_len, flat, samples[0], flat, samples[1], flat, samples[2]) != TILG_DONE) return false;
    return true;
}

/* Which field of a leaf was rejected last. */
static uint32_t rejected;

/* How many bytes of a plan of this header are in the room. */
static size_t UNUSED build(const tilg_plan_header *header, uint8_t *room, size_t room_len) {
    tilg_builder builder;
    size_t len;
    if (!begun_plan(header, &builder, room, room_len)) return builder.written;
    for (int i = 0; i < 700 && tilg_builder_finish(&len, &builder, room, room_len) != TILG_DONE; i++) {
        tilg_coefficient values[3][6];
        size_t counts[3] = {drawn_coefficients(values[0], 6), drawn_coefficients(values[1], 6), drawn_coefficients(values[2], 6)};
        tilg_leaf leaf = drawn_leaf(&builder, asked_size(&builder)), bare = without_chroma(leaf);
        uint8_t mark = below(4);
        if (builder.count && builder.parts[builder.count - 1].kind == 0) {
            uint32_t status = tilg_builder_leaf(&builder, room, room_len, &rejected, &leaf, values[0], counts[0], values[1], counts[1], values[2], counts[2]);
            if (status != TILG_DONE) status = tilg_builder_leaf(&builder, room, room_len, &rejected, &bare, values[0], counts[0], NULL, 0, NULL, 0);
        } else {
            uint32_t status = tilg_builder_mark(&builder, room, room_len, mark);
            if (status != TILG_DONE) status = tilg_builder_mark(&builder, room, room_len, 3);
        }
    }
    return builder.written;
}

/* ---- bytes that hold plans as parts */

static uint8_t UNUSED text[SLOT];
static size_t UNUSED text_len;

static void UNUSED put(const void *bytes, size_t len) {
    CHECK(len <= sizeof text - text_len);
    memcpy(text + text_len, bytes, len);
    text_len += len;
}

static void UNUSED put_byte(uint8_t value) {
    put(&value, 1);
}

static void UNUSED put_part(const uint8_t *bytes, size_t len) {
    uint8_t length[4] = {(uint8_t)len, (uint8_t)(len >> 8), (uint8_t)(len >> 16), 0};
    put(length, 4);
    put(bytes, len);
}

#endif
