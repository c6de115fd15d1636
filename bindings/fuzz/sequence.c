/* Sequences of frames: tilg_reconstruct_sequence, on the fuzzer's bytes, and on entries over parts that a builder made, some of whose bytes were changed.
 * Another reader finds the entries, and what each frame comes to is told by its plan, which is reconstructed by itself. */
#include "heap.h"
#include "plans.h"

enum { MOST_ENTRIES = 8, MOST_PLANES = 6 * MOST_SIDE * MOST_SIDE };

/* ---- a sequence that is drawn ---- */

/* The leaves of frames: those of the first part read no references. */
static numbers drawn_part(tilg_plan_header header, bool plain) {
    static uint8_t rooms[2][SLOT / 4];
    uint8_t *room = rooms[plain];
    header.mask = plain ? 0 : 1;
    size_t len = build(&header, room, sizeof rooms[0]), front = HEADER + (plain || len < HEADER ? 0 : frame_bytes(room + 4));
    return (numbers){.at = room + (len < front ? len : front), .count = len < front ? 0 : len - front};
}

/* What the head of an entry says: of a frame its settings and its slots, or the slot whose frame is shown again. */
typedef struct {
    uint8_t kind, slot, refresh, settings[9];
    bool plain; /* whether its part is the one that reads no references */
} drawn_entry;

/* A frame that isn't shown, a frame that is, or the frame of a slot, which is shown again. Sequences of frames of version 2 have the second alone. */
static drawn_entry draw_entry(bool has_kinds) {
    drawn_entry made = {.kind = has_kinds ? number(3) : 1, .slot = number(8), .refresh = byte(), .settings = {number(4), number(2)}};
    uint8_t usual = below(4);
    for (int i = 2; i < 9; i++) made.settings[i] = one_in(4) ? number(8) : usual;
    made.plain = one_in(2);
    return made;
}

static void put_entry(bool has_kinds, drawn_entry made, numbers part) {
    if (has_kinds) put_byte(made.kind);
    if (made.kind == 2) {
        put_byte(made.slot), put_byte(made.refresh);
    } else {
        put(made.settings, 9), put_byte(made.refresh);
        put_part(part.at, part.count);
    }
}

static void draw_entries(void) {
    tilg_plan_header header = drawn_header();
    drawn_entry made[MOST_ENTRIES];
    bool has_kinds = header.version == 3;
    uint8_t count = below(MOST_ENTRIES);
    for (int i = 0; i < count; i++) made[i] = draw_entry(has_kinds);
    numbers plain = drawn_part(header, true), other = drawn_part(header, false);
    put(has_kinds ? "RSQ2" : "RSQ1", 4);
    put(&header.width, 2), put(&header.height, 2), put_byte(header.bit_depth), put_byte(header.sampling);
    put_byte(count), put_byte(0);
    for (int i = 0; i < count; i++) put_entry(has_kinds, made[i], i == 0 || made[i].plain ? plain : other);
}

static numbers drawn_sequence(void) {
    text_len = 0;
    if (one_in(8)) {
        put(input, input_end - input);
        input = input_end;
    } else {
        draw_entries();
    }
    for (size_t changed = one_in(2) ? 1 + below(3) : 0; changed-- && text_len;) text[below(one_in(2) && text_len > 40 ? 40 : text_len)] = byte();
    if (one_in(16)) text_len -= below(text_len < 30 ? text_len + 1 : 30);
    if (one_in(16)) put_byte(byte());
    numbers sequence = lay(text_len, 1);
    if (sequence.count) memcpy(sequence.at, text, sequence.count);
    return keep(sequence), sequence;
}

/* ---- another reader ---- */

/* An entry, and where what its head says of a frame and its part stand. */
typedef struct {
    uint32_t kind, slot, refresh, len;
    const uint8_t *head, *part;
} entry;

/* The bytes that aren't read yet. */
static const uint8_t *rest, *rest_end;

/* Reads the next field, if it is there whole and is one of `least`, a `step` more, and so on up to `most`. Else it stays the next one. */
static bool take(size_t len, uint32_t least, uint32_t most, uint32_t step, uint32_t *to) {
    uint32_t value = 0;
    if ((size_t)(rest_end - rest) < len) return false;
    for (size_t i = 0; i < len; i++) value |= (uint32_t)rest[i] << 8 * i;
    if (value < least || value > most || (value - least) % step) return false;
    *to = value;
    rest += len;
    return true;
}

/* What stands before the entries: the version of their plans, and how many there are. */
static bool take_front(uint32_t *version, uint32_t *count) {
    uint32_t letters = 0, skipped;
    if (!take(4, 0x31515352, 0x32515352, 0x01000000, &letters)) return false;
    *version = letters >> 24 == '2' ? 3 : 2;
    uint32_t step = *version == 3 ? 1 : 8;
    return take(2, step, 2048, step, &skipped) && take(2, step, 2048, step, &skipped) && take(1, 8, 12, 2, &skipped) && take(1, 0, 2, 1, &skipped) &&
           take(2, 0, 65535, 1, count);
}

static bool take_entry(uint32_t version, entry *to) {
    uint32_t skipped;
    to->kind = 1;
    if (version == 3 && !take(1, 0, 2, 1, &to->kind)) return false;
    if (to->kind == 2) return take(1, 0, 7, 1, &to->slot) && take(1, 0, 255, 1, &to->refresh);
    to->head = rest;
    if (!take(1, 0, 3, 1, &skipped) || !take(1, 0, 1, 1, &skipped)) return false;
    for (int i = 0; i < 7; i++)
        if (!take(1, 0, 7, 1, &skipped)) return false;
    if (!take(1, 0, 255, 1, &to->refresh) || !take(4, 0, UINT32_MAX, 1, &to->len)) return false;
    to->part = rest;
    if ((size_t)(rest_end - rest) < to->len) return false;
    rest += to->len;
    return true;
}

/* ---- what it comes to ---- */

/* What is answered where there is memory and room, and what is written then. */
typedef struct {
    uint32_t status;
    tilg_part_refusal told;
    size_t written;
} outcome;

static const tilg_part_refusal untold = {7, 8, 9, 10};

static uint8_t held[8][MOST_PLANES], frame[MOST_PLANES], shown[SLOT / 2];
static uint8_t filled; /* the slots that hold a frame: bit s is slot s */

/* The planes of a frame of so many bytes each, by its plan; `front` is that of the sequence. */
static outcome frame_of(const uint8_t *front, uint32_t version, const entry *of, uint32_t number, size_t planes) {
    static uint8_t plan[SLOT];
    size_t len = HEADER, written = 0;
    tilg_refusal refusal = {0, 0, 0};
    memcpy(plan, version == 3 ? "RPL3" : "RPL2", 4), memcpy(plan + 4, front + 4, 6), memcpy(plan + 10, of->head, 9);
    plan[19] = 0;
    for (int i = 2; i < 9; i++) plan[19] |= filled & 1u << of->head[i];
    for (int slot = 0; slot < 8; slot++)
        if (plan[19] >> slot & 1) memcpy(plan + len, held[slot], planes), len += planes;
    memcpy(plan + len, of->part, of->len);
    uint32_t status = tilg_reconstruct_plan(frame, sizeof frame, &written, &refusal, plan, len + of->len);
    came_up(2 + version, plan[19], refusal.kind, status);
    if (status == TILG_MALFORMED) return (outcome){TILG_MALFORMED_PART, {number, refusal.at - (uint32_t)len, 0, 0}, 0};
    if (status == TILG_INVALID) return (outcome){TILG_INVALID_PART, {number, 0, refusal.leaf, refusal.kind}, 0};
    CHECK(status == TILG_DONE && written == planes);
    return (outcome){TILG_DONE, untold, 0};
}

/* Writes the frame where it is shown, as far as `shown` has room, and keeps it. */
static void show_and_keep(const entry *of, size_t planes, size_t *written) {
    if (of->kind > 0 && *written + planes <= sizeof shown) memcpy(shown + *written, frame, planes);
    *written += of->kind > 0 ? planes : 0;
    for (int slot = 0; slot < 8; slot++)
        if (of->refresh >> slot & 1) memcpy(held[slot], frame, planes);
    filled |= of->refresh;
}

/* The frame of a slot is shown again, where the slot holds one. */
static outcome again(const entry *of, uint32_t number, size_t planes) {
    if (!(filled >> of->slot & 1)) return (outcome){TILG_EMPTY_SLOT, {number, 0, 0, 0}, 0};
    memcpy(frame, held[of->slot], planes);
    return (outcome){TILG_DONE, untold, 0};
}

/* What the entries behind the front come to, all of which can be read. */
static outcome entries_outcome(const uint8_t *front, uint32_t version, uint32_t count, size_t planes) {
    size_t written = 0;
    filled = 0;
    for (uint32_t number = 0; number < count; number++) {
        entry next;
        CHECK(take_entry(version, &next));
        outcome found = next.kind == 2 ? again(&next, number, planes) : frame_of(front, version, &next, number, planes);
        came_up(version, 16 * next.kind + number % 16, filled ? 16 * next.kind + (uint32_t)__builtin_popcount(filled) : 0, found.status);
        if (found.status != TILG_DONE) return found;
        show_and_keep(&next, planes, &written);
    }
    return (outcome){TILG_DONE, untold, written};
}

/* Whether all can be read, to the last byte; else `rest` stays at the first field that can't. */
static bool reads(const uint8_t *front, size_t len, uint32_t *version, uint32_t *count) {
    entry skipped;
    rest = front, rest_end = rest + len;
    if (!take_front(version, count)) return false;
    for (uint32_t i = 0; i < *count; i++)
        if (!take_entry(*version, &skipped)) return false;
    return rest == rest_end;
}

/* What a sequence comes to, unless its frames are large, which would take long. */
static bool known(numbers sequence, outcome *to) {
    uint32_t version, count;
    const uint8_t *front = sequence.count ? sequence.at : text;
    if (!reads(front, sequence.count, &version, &count)) {
        *to = (outcome){TILG_MALFORMED, {0, (uint32_t)(rest - front), 0, 0}, 0};
        return true;
    }
    size_t planes = frame_bytes(front + 4);
    if (planes > MOST_PLANES && count) return false;
    rest = front + 12;
    *to = entries_outcome(front, version, count, planes);
    return true;
}

/* What the call answered, where memory may have run out. */
static void comes_to(outcome wanted, uint32_t status, bool may_fail, numbers room, size_t written, tilg_part_refusal told) {
    if (status != TILG_OUT_OF_MEMORY || !may_fail)
        CHECK(status == (wanted.status == TILG_DONE && wanted.written > room.count ? TILG_ROOM_TOO_SMALL : wanted.status));
    bool tells = status == TILG_MALFORMED || (TILG_TOO_LONG_PART <= status && status <= TILG_EMPTY_SLOT);
    CHECK(!memcmp(&told, tells ? &wanted.told : &untold, sizeof told));
    if (status != TILG_DONE) {
        CHECK(written == (status == TILG_ROOM_TOO_SMALL ? wanted.written : 77));
        all_kept(room);
        return;
    }
    CHECK(written == wanted.written && !(written && memcmp(room.at, shown, written)));
    kept_behind(room, written);
}

int LLVMFuzzerTestOneInput(const uint8_t *data, size_t length) {
    begin(data, length);
    guarded = one_in(4);
    long give = one_in(4) ? (long)below(90) : -1;
    numbers sequence = drawn_sequence();
    outcome wanted;
    left_to_give = -1, kept = 0;
    if (!known(sequence, &wanted) || wanted.written > sizeof shown) return 0;
    numbers room = lay_filled(one_in(8) ? below(wanted.written + 1) : wanted.written + (one_in(4) ? below(40) : 0), 1, 255);
    tilg_part_refusal told = untold;
    size_t written = 77;
    left_to_give = give;
    uint32_t status = tilg_reconstruct_sequence(room.at, room.count, &written, &told, sequence.at, sequence.count);
    came_up(0, told.kind, told.part, status);
    answered(status, 0 OR(DONE) OR(OUT_OF_MEMORY) OR(ROOM_TOO_SMALL) OR(MALFORMED) OR(MALFORMED_PART) OR(INVALID_PART) OR(EMPTY_SLOT));
    CHECK(kept == 0);
    all_kept(sequence);
    comes_to(wanted, status, give >= 0, room, written, told);
    return 0;
}
