/* Logs what dav1d knows of each frame once its entropy decoder is done.
 *
 * If the variable PLAN_LOG names a file, the log is written to it.  A record is a tag, a count, and that many 32-bit numbers
 * in the machine's order.  Samples are bytes, padded to whole numbers.  logged.py reads the log.  dav1d has to run with
 * `--threads 1 --framedelay 1`: then it parses and reconstructs each block at once, in coding order. */
#include <stdio.h>
#include <stdlib.h>
#include <string.h>

#include "common/intops.h"
#include "src/plan_log.h"
#include "src/tables.h"

enum Tag { FRAME = 1, BLOCK, TRANSFORM, REFERENCE, PLANES, END };

int plan_log_fault;
static FILE *file;
static int frames;
static unsigned used;   /* bit i: a block of the frame is predicted from reference i */
static uint8_t *before; /* the frame before its loop filters: its planes, row by row without gaps */

static int is_on(void) {
    static int asked;
    if (!asked) {
        asked = 1;
        const char *const name = getenv("PLAN_LOG"), *const fault = getenv("PLAN_LOG_FAULT");
        if (name && *name && !(file = fopen(name, "wb"))) abort();
        plan_log_fault = fault ? atoi(fault) : 0;
    }
    return file != NULL;
}

static void record(const int tag, const int count, const int *const numbers) {
    const int head[2] = { tag, count };
    fwrite(head, 4, 2, file);
    fwrite(numbers, 4, count, file);
}

static int is_inter(const Dav1dFrameContext *const f) {
    return f->frame_hdr->frame_type == DAV1D_FRAME_TYPE_INTER || f->frame_hdr->frame_type == DAV1D_FRAME_TYPE_SWITCH;
}

/* The width and height of a plane: as shown, or of what is coded, which is rounded up to multiples of 8 luma samples. */
static int columns(const Dav1dPicture *const p, const int plane, const int coded) {
    const int half = plane && p->p.layout != DAV1D_PIXEL_LAYOUT_I444;
    return ((coded ? (p->p.w + 7) & ~7 : p->p.w) + half) >> half;
}

static int rows(const Dav1dPicture *const p, const int plane, const int coded) {
    const int half = plane && p->p.layout == DAV1D_PIXEL_LAYOUT_I420;
    return ((coded ? (p->p.h + 7) & ~7 : p->p.h) + half) >> half;
}

static int planes(const Dav1dPicture *const p) {
    return p->p.layout == DAV1D_PIXEL_LAYOUT_I400 ? 1 : 3;
}

static size_t bytes(const Dav1dPicture *const p, const int coded) {
    size_t sum = 0;
    for (int i = 0; i < planes(p); i++) sum += (size_t) columns(p, i, coded) * rows(p, i, coded) << (p->p.bpc > 8);
    return sum;
}

void plan_log_frame(const Dav1dFrameContext *const f) {
    if (!is_on()) return;
    const Dav1dFrameHeader *const h = f->frame_hdr;
    const int inter = is_inter(f), superblock = 6 + f->seq_hdr->sb128;
    int n[256], k = 0;
    n[k++] = frames++;
    n[k++] = h->frame_type;
    n[k++] = h->width[0];
    n[k++] = h->height;
    n[k++] = f->cur.p.bpc;
    n[k++] = f->cur.p.layout;
    n[k++] = f->seq_hdr->sb128;
    n[k++] = h->subpel_filter_mode;
    n[k++] = f->seq_hdr->intra_edge_filter;
    n[k++] = h->tiling.cols;
    n[k++] = h->tiling.rows;
    for (int i = 0; i < 7; i++) n[k++] = inter ? h->refidx[i] : 0;
    for (int i = 0; i < 7; i++) n[k++] = inter && (f->refp[i].p.p.w != f->cur.p.w || f->refp[i].p.p.h != f->cur.p.h);
    for (int i = 0; i < 7; i++) n[k++] = inter && f->gmv_warp_allowed[i];
    /* where columns and rows of tiles begin after the first, in luma samples */
    for (int i = 1; i < h->tiling.cols; i++) n[k++] = h->tiling.col_start_sb[i] << superblock;
    for (int i = 1; i < h->tiling.rows; i++) n[k++] = h->tiling.row_start_sb[i] << superblock;
    record(FRAME, k, n);
    used = 0;
    free(before);
    before = calloc(1, bytes(&f->cur, 1));
}

/* A block's decisions, once all are read. */
void plan_log_block(const Dav1dTaskContext *const t, const int level, const int size, const int partition,
                    const int has_chroma, const Av1Block *const b)
{
    if (!is_on()) return;
    const Dav1dFrameContext *const f = t->f;
    const int inter = !b->intra && is_inter(f), one = inter && b->comp_type == COMP_INTER_NONE;
    int n[32], k = 0;
    n[k++] = t->bx;
    n[k++] = t->by;
    n[k++] = dav1d_block_dimensions[size][0];
    n[k++] = dav1d_block_dimensions[size][1];
    n[k++] = 32 >> level; /* the side of its node, in units of 4 luma samples */
    n[k++] = partition;
    n[k++] = has_chroma;
    n[k++] = b->intra ? 0 : inter ? 2 : 1; /* intra, copied from the frame itself, inter */
    n[k++] = f->frame_hdr->segmentation.lossless[b->seg_id];
    if (b->intra) {
        const int from_luma = has_chroma && b->uv_mode == CFL_PRED;
        n[k++] = b->tx;
        n[k++] = b->y_mode;
        n[k++] = b->y_angle;
        n[k++] = has_chroma ? b->uv_mode : 0;
        n[k++] = has_chroma && !from_luma ? b->uv_angle : 0;
        n[k++] = from_luma ? b->cfl_alpha[0] : 0;
        n[k++] = from_luma ? b->cfl_alpha[1] : 0;
        n[k++] = b->pal_sz[0] || (has_chroma && b->pal_sz[1]);
    } else {
        n[k++] = b->max_ytx;
        n[k++] = inter ? b->inter_mode : 0;
        n[k++] = inter ? b->ref[0] : -1;
        n[k++] = b->mv[0].y;
        n[k++] = b->mv[0].x;
        n[k++] = inter && !one ? b->ref[1] : -1;
        n[k++] = inter && !one ? b->mv[1].y : 0;
        n[k++] = inter && !one ? b->mv[1].x : 0;
        n[k++] = inter ? b->comp_type : 0;
        n[k++] = one ? b->interintra_type : 0;
        n[k++] = one ? b->motion_mode : 0;
        n[k++] = one && b->motion_mode == MM_WARP ? t->warpmv.type : 0;
        n[k++] = inter ? dav1d_filter_dir[b->filter2d][1] : 3; /* along rows */
        n[k++] = inter ? dav1d_filter_dir[b->filter2d][0] : 3; /* along columns */
        if (inter) used |= 1U << b->ref[0] | (one ? 0 : 1U << b->ref[1]);
    }
    record(BLOCK, k, n);
}

/* A transform block with coefficients, and what is predicted there: its samples before the residual is added. */
void plan_log_transform(const Dav1dTaskContext *const t, const int plane, const int size, const int type,
                        void *const coefficients)
{
    if (!is_on()) return;
    const Dav1dPicture *const p = &t->f->cur;
    const TxfmInfo *const d = &dav1d_txfm_dimensions[size];
    static int n[6 + 2 * 1024 + 64 * 64 / 2];
    const int wide = p->p.bpc > 8, count = imin(d->w, 8) * imin(d->h, 8) * 16;
    const int half_x = plane && p->p.layout != DAV1D_PIXEL_LAYOUT_I444, half_y = plane && p->p.layout == DAV1D_PIXEL_LAYOUT_I420;
    int k = 6, last = 0;
    for (int i = 0; i < count; i++) {
        const int value = wide ? ((const int32_t *) coefficients)[i] : ((const int16_t *) coefficients)[i];
        if (!value) continue;
        n[k++] = last = i;
        n[k++] = value;
    }
    memcpy(n, (const int[]) { t->bx, t->by, plane, size, type, (k - 6) / 2 }, 6 * sizeof(*n));
    static int changed;
    if (plan_log_fault == 4 && frames == 2 && !changed) { /* one bit, in the second frame */
        changed = 1;
        if (wide) ((int32_t *) coefficients)[last] ^= 64;
        else ((int16_t *) coefficients)[last] ^= 64;
    }
    const int width = 4 * d->w << wide, height = 4 * d->h;
    const ptrdiff_t stride = p->stride[!!plane];
    const uint8_t *const from = (const uint8_t *) p->data[plane] + 4 * (t->by >> half_y) * stride + (4 * (t->bx >> half_x) << wide);
    for (int y = 0; y < height; y++) memcpy((uint8_t *) &n[k] + y * width, from + y * stride, width);
    record(TRANSFORM, k + width * height / 4, n);
}

static void copy(uint8_t *out, const Dav1dPicture *const p, const int coded, const int first, const int last) {
    for (int i = 0; i < planes(p); i++) {
        const int half = i && p->p.layout == DAV1D_PIXEL_LAYOUT_I420;
        const size_t width = (size_t) columns(p, i, coded) << (p->p.bpc > 8);
        for (int y = first >> half; y < rows(p, i, coded) && y < last >> half; y++)
            memcpy(out + y * width, (const uint8_t *) p->data[i] + y * p->stride[!!i], width);
        out += width * rows(p, i, coded);
    }
}

/* A row of superblocks is reconstructed, and none of its samples is filtered yet. */
void plan_log_rows(const Dav1dFrameContext *const f, const int row) {
    if (is_on()) copy(before, &f->cur, 1, row * f->sb_step * 4, (row + 1) * f->sb_step * 4);
}

static void samples(const int tag, const int slot, const Dav1dPicture *const p, const int coded, const uint8_t *const from) {
    const int size = (int) bytes(p, coded), padded = (size + 3) / 4;
    fwrite((const int[]) { tag, 2 + padded, slot, size }, 4, 4, file);
    fwrite(from, 1, size, file);
    fwrite("\0\0\0", 1, 4 * padded - size, file);
}

void plan_log_end(const Dav1dFrameContext *const f, const int error) {
    if (!is_on()) return;
    unsigned written = 0;
    for (int i = 0; !error && i < 7; i++) {
        const int slot = is_inter(f) ? f->frame_hdr->refidx[i] : 0;
        if (!(used >> i & 1) || written >> slot & 1) continue;
        written |= 1U << slot;
        uint8_t *const held = malloc(bytes(&f->refp[i].p, 0));
        copy(held, &f->refp[i].p, 0, 0, 1 << 20);
        samples(REFERENCE, slot, &f->refp[i].p, 0, held);
        free(held);
    }
    if (!error) samples(PLANES, 0, &f->cur, 1, before);
    record(END, 1, &error);
    fflush(file);
}
