/*
 * copies.h - xm23 copies: programs that are alike, as lines and as a page.
 */
#ifndef COPIES_H
#define COPIES_H

#include "alike.h"

enum { MOST_PAIRS = 200, MOST_SIDES = 24 }; /* pairs that are told; those of them with both listings on the page */

/* What is compared, and what is found. */
struct compared {
    struct paper *paper;
    char **names;
    size_t many, left; /* programs; those that could not be compared */
    enum reading kind;
    size_t shared;  /* folders that all names begin with */
    const char *to; /* where the page goes; NULL: there is none */
    int taken;      /* a file that is read stands there, which has been told */
    struct alike alike;
};

#define A_PERSON "What is alike may have an honest reason: a person decides."

/* Groups in the order in which they are told. One with an ignored bit set goes first; `shape` are those that are the
 * same but for registers. The first of the next group from a program on; as many as there are where there is none. */
size_t next_group(const struct alike *x, size_t from, int shape, int ignored);

/* Reads and loads a program again, of which it was told before that it cannot be. */
int load_compared(const struct compared *c, size_t i, struct assembled *a);

void add_copies_page(struct text *t, const struct compared *c);

#endif
