/* Calls that edits.py puts into dav1d; see plan_log.c. */
#ifndef PLAN_LOG_H
#define PLAN_LOG_H

#include "src/internal.h"

/* The fault that is seeded into this run, or 0: 1 smooth prediction, 2 average, 3 transform, 4 coefficient. */
extern int plan_log_fault;

void plan_log_frame(const Dav1dFrameContext *f);
void plan_log_block(const Dav1dTaskContext *t, int level, int size, int partition, int has_chroma, const Av1Block *b);
void plan_log_transform(const Dav1dTaskContext *t, int plane, int size, int type, void *coefficients);
void plan_log_rows(const Dav1dFrameContext *f, int row);
void plan_log_end(const Dav1dFrameContext *f, int error);

#endif
