/* tilg_mc_avg_8 and _16. */
#include "fuzz.h"

static area to;
static size_t width, height;
static uint8_t bits;

static uint32_t average(numbers samples, numbers first, numbers second) {
    return samples.width == 1
        ? tilg_mc_avg_8(samples.at, samples.count, to.stride, to.x, to.y, width, height, first.at, first.count, second.at, second.count)
        : tilg_mc_avg_16(samples.at, samples.count, to.stride, to.x, to.y, width, height, first.at, first.count, second.at, second.count, bits);
}

static numbers lay_values(size_t needed) {
    return lay_filled(one_in(8) ? needed + below(64) : one_in(24) ? needed - below(needed + 1) : needed, 2, 65535);
}

static uint32_t expected(numbers samples, numbers first, numbers second) {
    if (width < 1 || width > 128 || height < 1 || height > 128) return TILG_BAD_SIZE;
    if (!is_inside(samples, to)) return TILG_BAD_AREA;
    if (first.count < width * height || second.count < width * height) return TILG_TOO_SHORT;
    return samples.width == 1 || is_depth(bits) ? TILG_DONE : TILG_BAD_DEPTH;
}

int LLVMFuzzerTestOneInput(const uint8_t *data, size_t length) {
    begin(data, length);
    bool wide = one_in(2);
    size_t w = one_in(3) ? 1 + below(128) : 4u << below(6), h = one_in(3) ? 1 + below(128) : 4u << below(6);
    width = one_in(24) ? near(131) : w, height = one_in(24) ? near(131) : h;
    bits = wide ? one_in(40) ? wild() : depth() : 8;
    numbers samples = lay_area(&to, w, h, wide ? 2 : 1);
    to.width = width, to.height = height;
    fill(samples, wide ? 65535 : 255);
    numbers first = lay_values(w * h), second = lay_values(w * h);
    uint32_t status = average(samples, first, second);
    came_up(wide, w, h * 4 + bits, status);
    answered(status, 0 OR(DONE) OR(BAD_SIZE) OR(BAD_AREA) OR(TOO_SHORT) | (wide ? 0 OR(BAD_DEPTH) : 0));
    CHECK(status == expected(samples, first, second));
    all_kept(first), all_kept(second);
    if (status != TILG_DONE) {
        all_kept(samples);
        return 0;
    }
    only_inside(samples, to, (1u << bits) - 1);
    if (wide || samples.count > SLOT / 4) return 0;
    /* Samples of 16 bits become the same at a depth of 8. */
    numbers other = lay(samples.count, 2);
    bits = 8;
    CHECK(average(other, first, second) == TILG_DONE);
    same_inside(samples, to, other, to);
    return 0;
}
