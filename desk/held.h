/*
 * held.h - how far down the stack the handlers of a run went, by its trace.
 */
#ifndef HELD_H
#define HELD_H

#include "machine.h"

struct held {
    uint8_t entered[8]; /* by device: whether its handler ran */
    uint32_t most[8];   /* by device: the bytes by which it held SP below where its entry left it */
    uint32_t below;     /* the bytes by which SP lay below that of the application when the outermost opened */
    unsigned lowest;    /* SP there */
    int any;            /* whether a handler ran */
};

/* Of the run that a paper asks for, from a machine before its first step, which stays as it is. */
void find_held(struct held *h, const struct paper *p, const struct machine *before);

#endif
