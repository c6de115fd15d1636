/* tilg_inverse_transform_add_8, _16 and _rav1e_16. */
#include "fuzz.h"

static area to;
static uint8_t size, type;
static uint8_t bits;
static bool as_rav1e;

static uint32_t add(numbers context, const void *coefficients, size_t count, numbers samples) {
    return samples.width == 1
        ? tilg_inverse_transform_add_8(samples.at, samples.count, to.stride, to.x, to.y, context.at, coefficients, count, size, type)
        : as_rav1e
        ? tilg_inverse_transform_add_rav1e_16(samples.at, samples.count, to.stride, to.x, to.y, context.at, coefficients, count, size, type, bits)
        : tilg_inverse_transform_add_16(samples.at, samples.count, to.stride, to.x, to.y, context.at, coefficients, count, size, type, bits);
}

/* Coefficients of at most so many bits, most of them 0 or none; now and then one is past that. */
static void fill_coefficients(numbers made, int most) {
    uint32_t kept = below(5), range = 1u << (one_in(2) ? most : 1 + below(most));
    state = bytes(2) + 0x9E3779B97F4A7C15;
    for (size_t i = 0; i < made.count; i++) {
        int32_t value = kept == 0 ? (noise() & 1 ? range / 2 - 1 : -(range / 2)) : (int32_t)(noise() % range) - (int32_t)(range / 2);
        set(made, i, kept == 2 && noise() % 16 ? 0 : kept == 3 && i ? 0 : kept == 4 ? 0 : value);
    }
    if (made.count && one_in(16)) set(made, below(made.count), made.width == 2 ? bytes(2) : bytes(4));
    keep(made);
}

/* Whether each of the first `count` has at most so many bits, its sign among them. */
static bool has_bits(numbers made, size_t count, size_t most) {
    for (size_t i = 0; i < count; i++) {
        int32_t value = get(made, i);
        if (value >> (most - 1) != 0 && value >> (most - 1) != -1) return false;
    }
    return true;
}

/* Whether the size has this type: where the longer side is 64 DCT_DCT alone, where it is 32 IDTX, too, and WHT_WHT where both are 4. */
static bool is_type(const uint8_t *sides) {
    uint8_t longer = sides[0] > sides[1] ? sides[0] : sides[1];
    return longer == 64 ? type == 0 : longer == 32 ? type == 0 || type == 9 : type < 16 || (type == 16 && longer == 4);
}

static uint32_t expected(numbers coefficients, numbers samples, size_t needed) {
    if (size >= 19) return TILG_BAD_SIZE;
    if (!is_type(transform_sides[size])) return TILG_BAD_TYPE;
    if (!is_inside(samples, to)) return TILG_BAD_AREA;
    if (samples.width == 1) return TILG_DONE;
    if (!is_depth(bits)) return TILG_BAD_DEPTH;
    return has_bits(coefficients, coefficients.count < needed ? coefficients.count : needed, bits + 8) ? TILG_DONE : TILG_BAD_COEFFICIENT;
}

int LLVMFuzzerTestOneInput(const uint8_t *data, size_t length) {
    begin(data, length);
    bool wide = one_in(2);
    size = number(19), type = one_in(2) ? 0 : number(17);
    bits = wide ? one_in(40) ? wild() : depth() : 8;
    const uint8_t *sides = transform_sides[size % 19];
    size_t needed = (sides[0] < 32 ? sides[0] : 32) * (sides[1] < 32 ? sides[1] : 32);
    numbers samples = lay_area(&to, sides[0], sides[1], wide ? 2 : 1);
    fill(samples, wide ? one_in(8) ? 65535 : (1u << (is_depth(bits) ? bits : 8)) - 1 : 255);
    numbers coefficients = lay(one_in(8) ? needed + below(64) : one_in(2) ? needed - below(needed + 1) : needed, wide ? 4 : 2);
    fill_coefficients(coefficients, is_depth(bits) ? bits + 8 : 16);
    numbers context = lay(sizeof(tilg_context) / 4, 4);
    memset(context.at, byte(), sizeof(tilg_context));
    as_rav1e = one_in(2);
    uint32_t status = add(context, coefficients.at, coefficients.count, samples);
    came_up(wide, size, type * 4 + bits, status);
    answered(status, 0 OR(DONE) OR(BAD_SIZE) OR(BAD_TYPE) OR(BAD_AREA) | (wide ? 0 OR(BAD_DEPTH) OR(BAD_COEFFICIENT) : 0));
    CHECK(status == expected(coefficients, samples, needed));
    all_kept(coefficients);
    if (status != TILG_DONE) {
        all_kept(samples);
        return 0;
    }
    only_inside(samples, to, (1u << bits) - 1);
    /* What the context held plays no part, and those that the list is too short for are 0. */
    static int32_t filled[1024];
    size_t given = coefficients.count < needed ? coefficients.count : needed;
    memset(filled, 0, sizeof filled);
    if (given) memcpy(filled, coefficients.at, given * coefficients.width);
    numbers again = lay(samples.count, samples.width);
    memcpy(again.at, samples.copy, samples.count * samples.width);
    memset(context.at, byte() + 77, sizeof(tilg_context));
    CHECK(add(context, filled, needed, again) == TILG_DONE);
    CHECK(!memcmp(again.at, samples.at, samples.count * samples.width));
    return 0;
}
