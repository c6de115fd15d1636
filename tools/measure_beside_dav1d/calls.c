/* Makes block calls by dav1d's own functions and by builds of the library in one program, compares the results, and measures the
 * calls.
 *
 *   calls LIBRARY.so..
 *
 * calls.py compiles this file for samples of 8 bits and for samples of 16 bits (at a depth of 10), and links both with dav1d.
 * It makes each LIBRARY.so of an archive, by bindings/shared.sh. Standard input has a line for each call: its kind, the depth, the block's width and height, and the three
 * numbers that add_call of library.c writes. The kind `nothing` makes no call.
 *
 * First each implementation makes each call, with four sets of drawn samples (one under callgrind). If a result differs from
 * dav1d's plain C, or the library rejects a call, the program names the call and ends with status 1. Then each call is measured:
 *
 *   under callgrind   a dump for each implementation, of CALLS calls; its name has the line and the implementation
 *   otherwise         a line with the ticks of the time stamp counter for CALLS calls, for each implementation: the medians
 *                     of rounds in which the implementations take turns
 *
 * What is measured begins when all arguments are in memory. dav1d's transforms also clear the coefficients, so the library's
 * measured calls include that they are cleared afterwards. */
#include "src/library.c"
#include "src/scan.h"

#include <dlfcn.h>
#include <valgrind/callgrind.h>
#include <x86intrin.h>

/* The implementations: dav1d's, by its masks of processor features, then the builds of the library. */
enum { PLAIN_C, SSE, AVX2, OWN, MOST_LIBRARIES = 8, MOST_IMPLEMENTATIONS = OWN + MOST_LIBRARIES };
static const unsigned masks[OWN] = { 0, 7, 15 };
extern int implementations;

enum { CALLS = 4, ROUNDS = 151, SETS = 4, STRIDE = 192, AROUND = 16, ROWS = 128 + 2 * AROUND, MOST_LINES = 1 << 14 };

typedef struct {
    char kind[16];
    int depth, w, h, more[3];
} call;

bitfn_decls(void open_library, int number, void *handle);
bitfn_decls(void draw, int set);
bitfn_decls(void compare, const call *c);
bitfn_decls(void measure, const call *c, int line);

#if BITDEPTH == 8
static const int bitdepth_max = 255;
#else
static const int bitdepth_max = 1023;
#endif

static struct {
    Dav1dMCDSPContext mc;
    Dav1dIntraPredDSPContext intra;
    Dav1dInvTxfmDSPContext itx;
} tables[OWN];

/* The library's calls: the name here, and the name in tilgwaren.h. */
#define LIBRARY_CALLS(X) X(put, MOTION_CALL(put)) X(prep, MOTION_CALL(prep)) X(avg, CALL(mc_avg)) X(intra, CALL(predict_intra)) \
    X(cfl_ac, LUMA_CALL) X(cfl_pred, CALL(predict_cfl)) X(itx, CALL(inverse_transform_add))
#define POINTER(name, function) __typeof__(&function) name;
static struct { LIBRARY_CALLS(POINTER) } libraries[MOST_LIBRARIES];
#define TEXT(x) #x
#define FIND(name, function) libraries[number].name = (__typeof__(&function)) dlsym(handle, TEXT(function));

void bitfn(open_library)(const int number, void *const handle) {
    LIBRARY_CALLS(FIND)
}

/* ---- what calls read: samples of a plane, an edge whose corner is in the middle, values of prep, cfl_ac and coefficients */

static pixel ALIGN(samples[ROWS * STRIDE], 64);
static pixel ALIGN(drawn_edge[512], 64);
static pixel ALIGN(edge[512], 64);
static int16_t ALIGN(values[2][128 * 128], 64);
static int16_t ALIGN(ac[32 * 32], 64);
static coef ALIGN(drawn_coefficients[1024], 64);

/* ---- what they write */

static struct {
    pixel ALIGN(samples[128 * STRIDE], 64);
    int16_t ALIGN(values[128 * 128], 64);
    coef ALIGN(coefficients[CALLS][1024], 64);
} written, by_plain_c;
static uint32_t status;

static uint32_t state;
static int draws_extremes;

static uint32_t draw_bits(void) {
    state = state * 1664525 + 1013904223;
    return state >> 8;
}

/* A number between the two; of extremes one of them. */
static int draw_between(const int least, const int most) {
    if (draws_extremes) return draw_bits() & 1 ? least : most;
    return least + (int) (draw_bits() % (unsigned) (most - least + 1));
}

/* Draws what all calls read; odd sets have only the least and greatest values. */
void bitfn(draw)(const int set) {
    state = (uint32_t) set + 1;
    draws_extremes = set & 1;
    for (int i = 0; i < ROWS * STRIDE; i++) samples[i] = (pixel) draw_between(0, bitdepth_max);
    for (int i = 0; i < 512; i++) drawn_edge[i] = (pixel) draw_between(0, bitdepth_max);
    for (int i = 0; i < 128 * 128; i++)
        for (int k = 0; k < 2; k++)
            values[k][i] = (int16_t) (draw_between(0, 16 * bitdepth_max) - (BITDEPTH == 16 ? 8192 : 0));
    for (int i = 0; i < 32 * 32; i++) ac[i] = (int16_t) draw_between(-8 * bitdepth_max, 8 * bitdepth_max);
}

/* The edge of a block: as in AV1, samples past twice the shorter side repeat the last. */
static void prepare_edge(const int w, const int h) {
    const int last = imin(w, h);
    pixel *const corner = edge + 256;
    memcpy(edge, drawn_edge, sizeof(edge));
    for (int i = w + last + 1; i < 256; i++) corner[i] = corner[w + last];
    for (int i = h + last + 1; i < 256; i++) corner[-i] = corner[-h - last];
}

/* Where a coefficient is, by its index in coding order. */
static int position(const int index, const int tx, const int type, const int w, const int h) {
    if (type == WHT_WHT || dav1d_tx_type_class[type] == TX_CLASS_2D) return dav1d_scans[tx][index];
    if (dav1d_tx_type_class[type] == TX_CLASS_H) return index;
    return index % imin(w, 32) * imin(h, 32) + index / imin(w, 32);
}

/* Coefficients up to an end of block: about half of them aren't 0, the first ones are the greatest. */
static void draw_coefficients(const int tx, const int type, const int eob, const int w, const int h) {
    const int most = (draws_extremes ? 2000 : 60) << (BITDEPTH == 16 ? 2 : 0);
    memset(drawn_coefficients, 0, sizeof(drawn_coefficients));
    for (int i = 0; i <= eob; i++) {
        const int value = 1 + (int) (draw_bits() % (unsigned) (i < 3 ? 4 * most : most));
        if (i == eob || i == 0 || draw_bits() & 1)
            drawn_coefficients[position(i, tx, type, w, h)] = (coef) (draw_bits() & 1 ? value : -value);
    }
}

/* ---- one function for each kind of call: makes it `times` times, and returns how long that took */

static inline uint64_t now(void) {
    _mm_lfence();
    const uint64_t ticks = __rdtsc();
    _mm_lfence();
    return ticks;
}

#define MEASURED(...) do { \
    CALLGRIND_TOGGLE_COLLECT; \
    const uint64_t begin = now(); \
    for (int i = 0; i < times; i++) { __VA_ARGS__; } \
    const uint64_t end = now(); \
    CALLGRIND_TOGGLE_COLLECT; \
    return end - begin; \
} while (0)

/* A function that is in a register before the measurement begins. */
#define READY(name, function) __typeof__(function) name = function; __asm__ volatile("" : "+r"(name))

/* The block's rows for dav1d, and for the library. */
#define OWN_ROWS written.samples, STRIDE * sizeof(pixel)
#define LIBRARY_ROWS written.samples, 128 * STRIDE, STRIDE, 0, 0
#define OWN_REFERENCE samples + AROUND * STRIDE + AROUND, STRIDE * sizeof(pixel)
#define LIBRARY_REFERENCE samples, ROWS * STRIDE, STRIDE, AROUND, AROUND

static uint64_t make_nothing(const call *const c, const int by, const int times) {
    MEASURED(__asm__ volatile(""));
}

#define FILTER(name, fx, fy) [fx][fy] = FILTER_2D_##name,
static const uint8_t filters[4][4] = { FILTERS(FILTER) };

static uint64_t make_put(const call *const c, const int by, const int times) {
    const int w = c->w, h = c->h, mx = c->more[0] & 1 ? 5 : 0, my = c->more[0] & 2 ? 9 : 0;
    const tilg_motion_block b = { (size_t) w, (size_t) h, (uint8_t) mx, (uint8_t) my, (uint8_t) c->more[1], (uint8_t) c->more[2] };
    if (by >= OWN) {
        READY(library, libraries[by - OWN].put);
        MEASURED(status |= library(LIBRARY_ROWS, LIBRARY_REFERENCE, &b DEPTH_ARG));
    }
    READY(own, tables[by].mc.mc[filters[c->more[1]][c->more[2]]]);
    MEASURED(own(OWN_ROWS, OWN_REFERENCE, w, h, mx, my HIGHBD_TAIL_SUFFIX));
}

static uint64_t make_prep(const call *const c, const int by, const int times) {
    const int w = c->w, h = c->h, mx = c->more[0] & 1 ? 5 : 0, my = c->more[0] & 2 ? 9 : 0;
    const tilg_motion_block b = { (size_t) w, (size_t) h, (uint8_t) mx, (uint8_t) my, (uint8_t) c->more[1], (uint8_t) c->more[2] };
    if (by >= OWN) {
        READY(library, libraries[by - OWN].prep);
        MEASURED(status |= library(written.values, 128 * 128, LIBRARY_REFERENCE, &b DEPTH_ARG));
    }
    READY(own, tables[by].mc.mct[filters[c->more[1]][c->more[2]]]);
    MEASURED(own(written.values, OWN_REFERENCE, w, h, mx, my HIGHBD_TAIL_SUFFIX));
}

static uint64_t make_avg(const call *const c, const int by, const int times) {
    const int w = c->w, h = c->h;
    const size_t len = (size_t) (w * h);
    if (by >= OWN) {
        READY(library, libraries[by - OWN].avg);
        MEASURED(status |= library(LIBRARY_ROWS, (size_t) w, (size_t) h, values[0], len, values[1], len DEPTH_ARG));
    }
    READY(own, tables[by].mc.avg);
    MEASURED(own(OWN_ROWS, values[0], values[1], w, h HIGHBD_TAIL_SUFFIX));
}

/* dav1d's number of the mode, for a block whose left edge is bit 0 and whose edge above is bit 1. */
static int own_mode(const int mode, const int angle, const int edges) {
    static const int dc[4] = { DC_128_PRED, LEFT_DC_PRED, TOP_DC_PRED, DC_PRED };
    if (mode == DC_PRED) return dc[edges];
    if (mode >= SMOOTH_PRED) return mode;
    if (angle % 90 == 0 && mode <= HOR_PRED) return mode;
    return angle < 90 ? Z1_PRED : angle < 180 ? Z2_PRED : Z3_PRED;
}

static uint64_t make_intra(const call *const c, const int by, const int times) {
    static const int angles[9] = { 0, 90, 180, 45, 135, 113, 157, 203, 67 };
    const int w = c->w, h = c->h, mode = c->more[0], edges = c->more[2] & 3;
    const int angle = mode < SMOOTH_PRED ? angles[mode] + 3 * c->more[1] : 0;
    const int own_kind = own_mode(mode, angle, edges);
    const size_t left_len = (size_t) (own_kind == Z3_PRED ? w + h : h), above_len = (size_t) (own_kind == Z1_PRED ? w + h : w);
    const pixel *const corner = edge + 256;
    tilg_intra_block b = intra_block(w, h, edges & 1, edges >> 1 HIGHBD_TAIL_SUFFIX);
    b.mode = (uint8_t) mode;
    b.angle_step = (int8_t) c->more[1];
    b.edge_filter = c->more[2] >> 2 & 1;
    b.smooth_neighbour = c->more[2] >> 3 & 1;
    if (by >= OWN) {
        READY(library, libraries[by - OWN].intra);
        MEASURED(status |= library(LIBRARY_ROWS, &b, corner - left_len, left_len, *corner, corner + 1, above_len));
    }
    READY(own, tables[by].intra.intra_pred[own_kind]);
    const int own_angle = angle | b.smooth_neighbour << 9 | b.edge_filter << 10;
    MEASURED(own(OWN_ROWS, corner, w, h, own_angle, 128, 128 HIGHBD_TAIL_SUFFIX));
}

static uint64_t make_cfl_ac(const call *const c, const int by, const int times) {
    static const uint8_t layouts[4] = { DAV1D_PIXEL_LAYOUT_I444, DAV1D_PIXEL_LAYOUT_I422, 0, DAV1D_PIXEL_LAYOUT_I420 };
    const int w = c->w, h = c->h, halved = c->more[0], w_pad = c->more[1], h_pad = c->more[2];
    const tilg_cfl_block b = { tilg_block_size_of((size_t) w, (size_t) h), halved & 1, halved >> 1 & 1, (size_t) w_pad, (size_t) h_pad };
    if (by >= OWN) {
        READY(library, libraries[by - OWN].cfl_ac);
        MEASURED(status |= library(written.values, (size_t) (w * h), samples, ROWS * STRIDE, STRIDE, 0, 0, &b));
    }
    READY(own, tables[by].intra.cfl_ac[layouts[halved] - 1]);
    MEASURED(own(written.values, samples, STRIDE * sizeof(pixel), w_pad, h_pad, w, h));
}

static uint64_t make_cfl_pred(const call *const c, const int by, const int times) {
    const int w = c->w, h = c->h, edges = c->more[2], alpha = -7;
    const size_t len = (size_t) (w * h);
    const pixel *const corner = edge + 256;
    const tilg_intra_block b = intra_block(w, h, edges & 1, edges >> 1 HIGHBD_TAIL_SUFFIX);
    if (by >= OWN) {
        READY(library, libraries[by - OWN].cfl_pred);
        MEASURED(status |= library(LIBRARY_ROWS, &b, corner - h, (size_t) h, corner + 1, (size_t) w, ac, len, alpha));
    }
    READY(own, tables[by].intra.cfl_pred[own_mode(DC_PRED, 0, edges)]);
    MEASURED(own(OWN_ROWS, corner, w, h, ac, alpha HIGHBD_TAIL_SUFFIX));
}

static uint64_t make_itx(const call *const c, const int by, const int times) {
    const int tx = tilg_tx_size_of((size_t) c->w, (size_t) c->h), type = c->more[0], eob = c->more[1];
    const size_t n = tilg_coefficients_len((uint8_t) tx, (uint8_t) type, (size_t) eob + 1);
    for (int i = 0; i < times; i++) memcpy(written.coefficients[i], drawn_coefficients, sizeof(drawn_coefficients));
    if (by >= OWN) {
        READY(library, libraries[by - OWN].itx);
        MEASURED(status |= library(LIBRARY_ROWS, &context, written.coefficients[i], n, (uint8_t) tx, (uint8_t) type DEPTH_ARG);
                 memset(written.coefficients[i], 0, n * sizeof(coef)));
    }
    READY(own, tables[by].itx.itxfm_add[tx][type]);
    MEASURED(own(OWN_ROWS, written.coefficients[i], eob HIGHBD_TAIL_SUFFIX));
}

static const struct { const char *name; uint64_t (*make)(const call *c, int by, int times); } kinds[] = {
    { "nothing", make_nothing }, { "put", make_put }, { "prep", make_prep }, { "avg", make_avg }, { "intra", make_intra },
    { "cfl_ac", make_cfl_ac }, { "cfl_pred", make_cfl_pred }, { "itx", make_itx }
};

static _Noreturn void fail(const call *const c, const int by, const char *const why) {
    fprintf(stderr, "%s %d %d %d %d %d %d by %s, number %d: %s\n", c->kind, c->depth, c->w, c->h, c->more[0], c->more[1],
            c->more[2], by < OWN ? "dav1d" : "the library", by < OWN ? by : by - OWN, why);
    exit(1);
}

static uint64_t make(const call *const c, const int by, const int times) {
    for (size_t i = 0; i < sizeof(kinds) / sizeof(*kinds); i++)
        if (!strcmp(c->kind, kinds[i].name)) return kinds[i].make(c, by, times);
    fail(c, by, "not a kind of call");
}

/* ---- all implementations */

static COLD void init_tables(void) {
    for (int by = 0; by < OWN; by++) {
        dav1d_set_cpu_flags_mask(masks[by]);
        bitfn(dav1d_mc_dsp_init)(&tables[by].mc);
        bitfn(dav1d_intra_pred_dsp_init)(&tables[by].intra);
        bitfn(dav1d_itx_dsp_init)(&tables[by].itx, BITDEPTH == 8 ? 8 : 10);
    }
}

static void prepare(const call *const c) {
    if (!tables[0].mc.avg) init_tables();
    prepare_edge(c->w, c->h);
    if (!strcmp(c->kind, "itx"))
        draw_coefficients(tilg_tx_size_of((size_t) c->w, (size_t) c->h), c->more[0], c->more[1], c->w, c->h);
}

/* Compares the results of all implementations with those of dav1d's C, samples beside the block too. */
void bitfn(compare)(const call *const c) {
    prepare(c);
    for (int by = PLAIN_C; by < implementations; by++) {
        memcpy(written.samples, samples, sizeof(written.samples));
        memset(written.values, 0, sizeof(written.values));
        make(c, by, 1);
        if (status) fail(c, by, "rejected");
        if (by == PLAIN_C) memcpy(&by_plain_c, &written, sizeof(written));
        else if (memcmp(&by_plain_c, &written, sizeof(written))) fail(c, by, "the result differs from that of dav1d's C");
    }
}

static int compare_ticks(const void *const a, const void *const b) {
    const uint64_t x = *(const uint64_t *) a, y = *(const uint64_t *) b;
    return (x > y) - (x < y);
}

void bitfn(measure)(const call *const c, const int line) {
    static uint64_t ticks[MOST_IMPLEMENTATIONS][ROUNDS];
    char name[32];
    prepare(c);
    for (int by = PLAIN_C; by < implementations && RUNNING_ON_VALGRIND; by++) {
        snprintf(name, sizeof(name), "%d %d", line, by);
        CALLGRIND_ZERO_STATS;
        make(c, by, CALLS);
        CALLGRIND_DUMP_STATS_AT(name);
    }
    if (RUNNING_ON_VALGRIND) return;
    for (int round = 0; round < ROUNDS; round++)
        for (int by = PLAIN_C; by < implementations; by++) ticks[by][round] = make(c, by, CALLS);
    for (int by = PLAIN_C; by < implementations; by++) {
        qsort(ticks[by], ROUNDS, sizeof(**ticks), compare_ticks);
        printf("%llu%c", (unsigned long long) ticks[by][ROUNDS / 2], by == implementations - 1 ? '\n' : ' ');
    }
}

#if BITDEPTH == 8
int implementations = OWN;

int main(const int arguments, char **const paths) {
    static call calls[MOST_LINES];
    int n = 0;
    for (int i = 1; i < arguments && i <= MOST_LIBRARIES; i++) {
        void *const handle = dlopen(paths[i], RTLD_NOW | RTLD_LOCAL);
        if (!handle) return fprintf(stderr, "%s\n", dlerror()), 2;
        open_library_8bpc(i - 1, handle);
        open_library_16bpc(i - 1, handle);
        implementations++;
    }
    while (n < MOST_LINES && scanf("%15s %d %d %d %d %d %d", calls[n].kind, &calls[n].depth, &calls[n].w, &calls[n].h,
                                   &calls[n].more[0], &calls[n].more[1], &calls[n].more[2]) == 7) n++;
    dav1d_init_cpu();
    for (int set = RUNNING_ON_VALGRIND ? 0 : SETS - 1; set >= 0; set--) {
        draw_8bpc(set);
        draw_16bpc(set);
        for (int i = 0; i < n; i++) (calls[i].depth == 8 ? compare_8bpc : compare_16bpc)(&calls[i]);
    }
    for (int i = 0; i < n; i++) (calls[i].depth == 8 ? measure_8bpc : measure_16bpc)(&calls[i], i);
    return 0;
}
#endif
