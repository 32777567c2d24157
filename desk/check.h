/*
 * check.h - what is found of a paper before its sitting, alone and with a model.
 */
#ifndef CHECK_H
#define CHECK_H

#include "events.h"
#include "stack.h"

struct check {
    const struct paper *paper;
    const struct program *model; /* NULL: none */
    struct assembled bytes;      /* its own, all zeros where there is none */
    struct machine before;       /* the model's run, or the paper's memory alone */
    struct need need;
    uint8_t effects[8];          /* of an event of each device at the start: XM23_EFFECT_TAKEN and so on */
    struct text found, said;     /* a line for each finding; lines that are none */
    unsigned many;               /* findings */
};

/* A finding, as `name:line: text`, with line 0 `name: text`: any bytes, or as printf has it. */
void find_text(struct check *c, const char *name, uint32_t line, const struct text *says);
void find(struct check *c, const char *name, uint32_t line, const char *format, ...);

/* Events of which something is so: a finding for each line of the paper that has some. */
typedef int event_is(const struct check *c, size_t i);
void find_events(struct check *c, event_is *is, const char *what);

int is_late(const struct check *c, size_t i); /* behind the last step that the paper asks for */
int has_vector(const struct check *c, unsigned device); /* in the paper, or in the model */

/* ---- check_model.c */

/* The model's run: events, bytes that the paper lays over it, line and points, handlers, stack bytes. */
void check_model(struct check *c);

#endif
