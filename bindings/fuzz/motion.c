/* Blocks from references: tilg_put_8tap_8, tilg_prep_8tap_8, those on tested samples, tilg_test_samples_16, and tilg_put_moved_8,
 * tilg_prep_moved_8 and _16. */
#include "fuzz.h"

/* How a block is asked for. */
typedef struct {
    bool wide, prepared;
    uint8_t bits;
    area to, from;
    numbers written, read;
} call;

static uint8_t filter(void) {
    static const uint8_t named[] = {0, 1, TILG_FILTER_SHARP, 3, TILG_FILTER_RAV1E_SHARP};
    return one_in(24) ? byte() : named[below(5)];
}

static bool is_filter(uint8_t number) {
    return number <= 3 || number == TILG_FILTER_RAV1E_SHARP;
}

static size_t side(void) {
    return one_in(24) ? near(131) : one_in(3) ? 1 + below(128) : 1u << below(8);
}

static uint8_t fraction(void) {
    return one_in(3) ? 0 : number(16);
}

static bool is_side(size_t number) {
    return 1 <= number && number <= 128;
}

static size_t small(size_t number) {
    return is_side(number) ? number : 1;
}

static uint32_t most_of(const call *c) {
    return c->wide ? (1u << (is_depth(c->bits) ? c->bits : 8)) - 1 : 255;
}

static uint32_t block(const call *c, numbers written, const tilg_motion_block *b) {
    const area *to = &c->to, *from = &c->from;
    numbers read = c->read;
    if (!c->wide && c->prepared) return tilg_prep_8tap_8(written.at, written.count, read.at, read.count, from->stride, from->x, from->y, b);
    if (!c->wide)
        return tilg_put_8tap_8(written.at, written.count, to->stride, to->x, to->y, read.at, read.count, from->stride, from->x, from->y, b);
    if (c->prepared)
        return tilg_prep_tested_16(written.at, written.count, read.at, read.count, from->stride, from->x, from->y, b, c->bits);
    return tilg_put_tested_16(written.at, written.count, to->stride, to->x, to->y, read.at, read.count, from->stride, from->x, from->y, b, c->bits);
}

/* What is written for a block of these sides: its rectangle, or values row by row. */
static void lay_written(call *c, size_t width, size_t height) {
    if (c->prepared) {
        size_t needed = width * height;
        c->written = lay_filled(one_in(8) ? needed + below(64) : one_in(24) ? needed - below(needed + 1) : needed, 2, 65535);
    } else {
        c->written = lay_area(&c->to, width, height, c->wide ? 2 : 1);
        fill(c->written, c->wide ? 65535 : 255);
    }
}

static bool is_written_inside(const call *c, size_t width, size_t height) {
    return c->prepared || is_inside(c->written, (area){c->to.stride, c->to.x, c->to.y, width, height});
}

/* What a block may have changed. */
static void written_alone(const call *c, size_t width, size_t height) {
    if (c->prepared) kept_behind(c->written, width * height);
    else only_inside(c->written, (area){c->to.stride, c->to.x, c->to.y, width, height}, (1u << c->bits) - 1);
}

/* The same block of both are the same. */
static void same_written(const call *c, numbers other, area at, size_t width, size_t height) {
    if (c->prepared) CHECK(!memcmp(c->written.at, other.at, 2 * width * height));
    else same_inside(c->written, (area){c->to.stride, c->to.x, c->to.y, width, height}, other, at);
}

/* What is read for a block: along a dimension with a fraction 3 more samples before it and 4 more after it, else none. */
static area read_for(const call *c, const tilg_motion_block *b) {
    size_t left = b->fraction_x ? 3 : 0, top = b->fraction_y ? 3 : 0;
    return (area){c->from.stride, c->from.x - left, c->from.y - top, b->width + (left ? 7 : 0), b->height + (top ? 7 : 0)};
}

static bool is_read_inside(const call *c, const tilg_motion_block *b) {
    area read = read_for(c, b);
    return read.x <= c->from.x && read.y <= c->from.y && is_ending_inside(c->read, read);
}

static uint32_t expected_block(const call *c, const tilg_motion_block *b) {
    if (!is_side(b->width) || !is_side(b->height)) return TILG_BAD_SIZE;
    if (!is_filter(b->filter_x) || !is_filter(b->filter_y)) return TILG_BAD_MODE;
    if (b->fraction_x >= 16 || b->fraction_y >= 16) return TILG_BAD_FRACTION;
    if (!is_written_inside(c, b->width, b->height) || !is_read_inside(c, b)) return TILG_BAD_AREA;
    if (c->prepared && c->written.count < b->width * b->height) return TILG_TOO_SHORT;
    return !c->wide || is_depth(c->bits) ? TILG_DONE : TILG_BAD_DEPTH;
}

/* A block from a reference that has what is read, and often no more. */
static void by_place(call *c) {
    tilg_motion_block b = {side(), side(), fraction(), fraction(), filter(), filter()}, told = b;
    size_t width = small(b.width), height = small(b.height);
    lay_written(c, width, height);
    size_t left = b.fraction_x ? 3 : 0, top = b.fraction_y ? 3 : 0;
    area read;
    c->read = lay_ending(&read, width + (left ? 7 : 0), height + (top ? 7 : 0), c->wide ? 2 : 1);
    fill(c->read, most_of(c));
    c->from = (area){read.stride, read.x + left, read.y + top, width, height};
    uint32_t status = block(c, c->written, &b);
    came_up(c->wide * 2 + c->prepared, b.filter_x * 8 + b.filter_y, (b.fraction_x != 0) * 2 + (b.fraction_y != 0), status);
    answered(status, 0 OR(DONE) OR(BAD_SIZE) OR(BAD_MODE) OR(BAD_FRACTION) OR(BAD_AREA) | (c->prepared ? 0 OR(TOO_SHORT) : 0)
                         | (c->wide ? 0 OR(BAD_DEPTH) : 0));
    CHECK(status == expected_block(c, &b));
    all_kept(c->read);
    CHECK(!memcmp(&b, &told, sizeof b));
    if (status == TILG_DONE) written_alone(c, width, height);
    else all_kept(c->written);
}

static size_t nearest(ptrdiff_t at, size_t count) {
    return at < 0 ? 0 : (size_t)at < count ? (size_t)at : count - 1;
}

/* Where a vector leads along one dimension: a whole sample, and sixteenths beyond it. */
static ptrdiff_t place(size_t at, int vector, bool is_halved, uint8_t *fraction) {
    ptrdiff_t sixteenths = 16 * (ptrdiff_t)at + (is_halved ? 1 : 2) * vector;
    *fraction = sixteenths & 15;
    return sixteenths >> 4;
}

/* The block of a vector once more, by its place, from a window of the nearest visible samples. */
static void once_more(call *c, const tilg_motion_plane *plane, const tilg_moved_block *m) {
    tilg_motion_block b = {m->width, m->height, 0, 0, m->filter_x, m->filter_y};
    ptrdiff_t left = place(m->x, m->mv_x, plane->halved_columns, &b.fraction_x), top = place(m->y, m->mv_y, plane->halved_rows, &b.fraction_y);
    numbers window = lay((m->width + 7) * (m->height + 7), c->read.width);
    for (size_t y = 0; y < m->height + 7; y++)
        for (size_t x = 0; x < m->width + 7; x++) {
            size_t row = plane->y + nearest(top - 3 + (ptrdiff_t)y, plane->height), col = plane->x + nearest(left - 3 + (ptrdiff_t)x, plane->width);
            set(window, y * (m->width + 7) + x, get(c->read, row * plane->stride + col));
        }
    numbers other = lay(m->width * m->height, c->prepared ? 2 : c->read.width);
    call again = *c;
    again.read = window, again.from = (area){m->width + 7, 3, 3, m->width, m->height}, again.to = (area){m->width, 0, 0, m->width, m->height};
    CHECK(block(&again, other, &b) == TILG_DONE);
    same_written(c, other, again.to, m->width, m->height);
}

static uint32_t expected_moved(const call *c, const tilg_motion_plane *plane, const tilg_moved_block *m) {
    if (!is_side(m->width) || !is_side(m->height)) return TILG_BAD_SIZE;
    if (!is_filter(m->filter_x) || !is_filter(m->filter_y)) return TILG_BAD_MODE;
    bool some = 1 <= plane->width && plane->width <= 65536 && 1 <= plane->height && plane->height <= 65536 && m->x <= 65536 && m->y <= 65536;
    if (!some || !is_inside(c->read, (area){plane->stride, plane->x, plane->y, plane->width, plane->height})) return TILG_BAD_AREA;
    if (!is_written_inside(c, m->width, m->height)) return TILG_BAD_AREA;
    if (c->prepared && c->written.count < m->width * m->height) return TILG_TOO_SHORT;
    return !c->wide || is_depth(c->bits) ? TILG_DONE : TILG_BAD_DEPTH;
}

static uint32_t moved(const call *c, const tilg_motion_plane *plane, const tilg_moved_block *m, tilg_context *context) {
    numbers to = c->written, from = c->read;
    if (!c->wide && c->prepared) return tilg_prep_moved_8(to.at, to.count, context, from.at, from.count, plane, m);
    if (!c->wide)
        return tilg_put_moved_8(to.at, to.count, c->to.stride, c->to.x, c->to.y, context, from.at, from.count, plane, m);
    if (c->prepared) return tilg_prep_moved_16(to.at, to.count, context, from.at, from.count, plane, m, c->bits);
    return tilg_put_moved_16(to.at, to.count, c->to.stride, c->to.x, c->to.y, context, from.at, from.count, plane, m, c->bits);
}

/* A block that a vector moves, from a plane without pads. */
static void by_vector(call *c) {
    tilg_moved_block m = {.width = side(), .height = side(), .mv_y = bytes(2), .mv_x = bytes(2), .filter_x = filter(), .filter_y = filter()};
    if (one_in(2)) m.mv_y %= 256, m.mv_x %= 256;
    size_t width = small(m.width), height = small(m.height);
    lay_written(c, width, height);
    area whole;
    c->read = lay_area(&whole, 1 + below(one_in(2) ? 200 : 12), 1 + below(one_in(2) ? 200 : 12), c->wide ? 2 : 1);
    fill(c->read, most_of(c));
    tilg_motion_plane plane = {whole.stride, whole.x, whole.y, whole.width, whole.height, one_in(2), one_in(2)}, told_plane = plane;
    if (one_in(24)) plane.width = near(300), told_plane = plane;
    if (one_in(24)) plane.height = near(300), told_plane = plane;
    m.x = near(whole.width + 9), m.y = near(whole.height + 9);
    tilg_moved_block told = m;
    numbers context = lay(sizeof(tilg_context) / 4, 4);
    memset(context.at, byte(), sizeof(tilg_context));
    uint32_t status = moved(c, &plane, &m, context.at);
    came_up(8 + c->wide * 2 + c->prepared, m.filter_x * 8 + m.filter_y, plane.halved_columns * 2 + plane.halved_rows, status);
    answered(status, 0 OR(DONE) OR(BAD_SIZE) OR(BAD_MODE) OR(BAD_AREA) | (c->prepared ? 0 OR(TOO_SHORT) : 0) | (c->wide ? 0 OR(BAD_DEPTH) : 0));
    CHECK(status == expected_moved(c, &plane, &m));
    all_kept(c->read);
    CHECK(!memcmp(&m, &told, sizeof m) && !memcmp(&plane, &told_plane, sizeof plane));
    if (status != TILG_DONE) {
        all_kept(c->written);
        return;
    }
    written_alone(c, width, height);
    once_more(c, &plane, &m);
}

/* Whether samples are tested right. */
static void test_samples(void) {
    area a;
    uint8_t bits = one_in(40) ? wild() : depth();
    numbers samples = lay_ending(&a, below(70), below(70), 2);
    fill(samples, one_in(8) ? 65535 : (1u << (is_depth(bits) ? bits : 8)) - 1);
    if (samples.count && one_in(4)) set(samples, below(samples.count), bytes(2)), keep(samples);
    uint32_t status = tilg_test_samples_16(samples.at, samples.count, a.stride, a.x, a.y, a.width, a.height, bits);
    came_up(13, bits, 0, status);
    answered(status, 0 OR(DONE) OR(BAD_AREA) OR(BAD_DEPTH) OR(BAD_SAMPLE));
    all_kept(samples);
    CHECK(is_held(samples, a) == (status != TILG_BAD_AREA));
    if (status != TILG_DONE && status != TILG_BAD_SAMPLE) return;
    CHECK(is_depth(bits));
    bool past = false;
    for (size_t y = 0; y < a.height; y++)
        for (size_t x = 0; x < a.width; x++) past |= get(samples, (a.y + y) * a.stride + a.x + x) >> bits != 0;
    CHECK(past == (status == TILG_BAD_SAMPLE));
}

int LLVMFuzzerTestOneInput(const uint8_t *data, size_t length) {
    begin(data, length);
    call c = {.wide = one_in(2), .prepared = one_in(2)};
    c.bits = c.wide ? one_in(40) ? wild() : depth() : 8;
    switch (below(8)) {
    case 0: test_samples(); break;
    case 1: case 2: case 3: case 4: by_place(&c); break;
    default: by_vector(&c);
    }
    return 0;
}
