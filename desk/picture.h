/*
 * picture.h - the picture of a whole run, by its trace: steps across, some of them in each column.
 */
#ifndef PICTURE_H
#define PICTURE_H

#include "text.h"
#include "xm23.h"

#define DRAWN_KINDS                                                                                                   \
    (XM23_KIND(XM23_KIND_EVENT) | XM23_KIND(XM23_KIND_PULL) | XM23_KIND(XM23_KIND_CHAIN) |                             \
     XM23_KIND(XM23_KIND_ACCEPT) | XM23_KIND(XM23_KIND_FAULT) | XM23_KIND(XM23_KIND_HALT) | XM23_KIND(XM23_KIND_TRAP))

enum { COLUMNS = 1000 };

/* Rows of the picture: events due, faults, and a lane for each priority, of devices' handlers and of others. */
enum { ROW_EVENTS, ROW_FAULTS, ROW_DEVICES, ROW_OTHERS = ROW_DEVICES + 8, ROWS = ROW_OTHERS + 8 };

struct picture {
    uint32_t start, steps;          /* the step count before the first step; how many are taken */
    uint8_t rows[ROWS][COLUMNS];    /* 1 where something is drawn */
    unsigned long told[16], strays; /* records, by kind; pulls with no handler open */
    size_t open;                    /* handlers that are open */
    uint64_t busy[8];               /* by priority: steps with a handler open, together */
};

void begin_picture(struct picture *d, const uint8_t *record, uint32_t steps);
void draw_trace(struct picture *d, const uint8_t *trace, uint32_t records);
void end_picture(struct picture *d); /* once the whole run is drawn, before another is begun */

/* The section of a page, the walk beginning at a step. */
void add_picture(struct text *t, const struct picture *d, uint32_t walk);

#endif
