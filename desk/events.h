/*
 * events.h - what became of each event of a paper, by the trace.
 */
#ifndef EVENTS_H
#define EVENTS_H

#include "machine.h"
#include "picture.h"

#define MOST_WALK (XM23_MAX_JOURNAL / XM23_JOURNAL_SIZE) /* steps: 1,024 */
#define MOST_TRACE (9 * MOST_WALK)                       /* records: a step has eight events at most, and its act */

struct fate {
    uint8_t due, effect; /* whether it came due; the trace's XM23_EFFECT_TAKEN and so on */
    uint8_t entry;       /* XM23_KIND_ACCEPT or XM23_KIND_CHAIN of its interrupt, at the step `at`; 0: none */
    uint32_t at;
};

struct fates {
    struct fate each[XM23_MAX_EVENTS];
    size_t next, oldest[8];  /* the first that is not told yet; by device the first that may wait */
    uint8_t before[8];       /* by device: entries that wait from before the first step */
    unsigned long entered;   /* those of them that were entered */
    uint32_t start;          /* the step count before the first step */
};

void begin_fates(struct fates *f, const struct paper *p, const struct machine *m);
void follow_trace(struct fates *f, const struct paper *p, const uint8_t *trace, uint32_t records);

/* Runs on by n steps, and follows their trace; the picture too, where it is not NULL. */
void trace_events(struct fates *f, struct picture *d, const struct paper *p, struct machine *m, uint64_t n);

/* What became of an event: whether it came due and was taken; and of one taken, what its interrupt did. */
enum {
    EVENT_TAKEN, EVENT_ENA_CLEAR, EVENT_BEFORE_START, EVENT_AFTER_END, EVENT_NOT_TAKEN, EVENT_IE_CLEAR,
    EVENT_COUNT_FULL, EVENT_WAITS, EVENT_ACCEPTED, EVENT_CHAINED, EVENT_WORDS
};

int event_of(const struct fates *f, const struct paper *p, size_t i);
int interrupt_of(const struct fate *e);

/* A word for each: whether it was taken, else why not; an overrun; its interrupt. Empty where it was not taken. */
const char *event_word(const struct fates *f, const struct paper *p, size_t i);
const char *overrun_word(const struct fate *e);
const char *interrupt_word(const struct fate *e);
void add_totals(struct text *t, const struct fates *f, const struct paper *p);

#endif
