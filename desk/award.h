/*
 * award.h - what a paper gives points for, and the judging of a run that is closed.
 *
 * Here numbers and bytes are compared, and nothing else is done: lines are read in paper_award.c, runs are taken in
 * awarded.c, words are made in award_text.c. award.c needs no other file of the desk.
 */
#ifndef AWARD_H
#define AWARD_H

#include "text.h"

enum { MOST_AWARDS = 64 }; /* of a paper: a bit of 64 each */

#define MOST_POINTS 1000 /* of one award */
#define MOST_WANTED 256  /* bytes that one wants in memory or on a screen */

/* What is looked at. Of a register and of a screen the number says which. */
enum subject {
    OF_REGISTER, OF_PSW, OF_CEX, OF_BYTE, OF_WORD, OF_BYTES, OF_SCREEN, OF_REASON, OF_DEPTH, OF_SOUND, OF_UNDISTURBED
};

enum relation { IS, IS_NOT, AT_MOST, AT_LEAST, HAS, RELATIONS };

/* A number, or bytes where they have a place. */
struct value {
    uint32_t number;
    const uint8_t *bytes; /* NULL: a number */
    size_t length;
};

struct award {
    enum subject subject;
    unsigned number, at; /* of a register or a device; an address */
    enum relation relation;
    struct value wanted; /* 1 of what is so or is not: sound, undisturbed */
    unsigned points;
    uint32_t line; /* of the paper */
};

struct awards {
    struct award list[MOST_AWARDS];
    size_t many;
    uint32_t pass, pass_line; /* the least points of those who pass; the line is 0 where the paper says nothing of it */
};

/* How a run closed. */
struct closing {
    const uint8_t *memory, *record; /* as xm23_run left them */
    uint32_t reason, deepest;
    const struct text *shown;       /* eight: what each device showed */
    int sound, undisturbed;         /* whether that was found of a run judged to its end */
};

/* Whether what is found stands in the relation to what is wanted. The one comparison: numbers by all but HAS, bytes by
 * IS, IS_NOT and HAS, which is that they are a part; anything else does not hold. */
int holds(enum relation relation, const struct value *found, const struct value *wanted);

/* What an award looks at; its bytes are those of the closing. */
struct value value_found(const struct award *a, const struct closing *c);

/* The awards that are met, bit I for the I-th. A program that did not run meets none. */
uint64_t judge_awards(const struct awards *a, const struct closing *c);

uint32_t points_of(const struct awards *a, size_t i, uint64_t met); /* of the I-th */
uint32_t total_of(const struct awards *a, uint64_t met);
uint32_t most_of(const struct awards *a); /* where all are met */
int passes(const struct awards *a, uint64_t met); /* 1 yes, 0 no, -1 where the paper says nothing of it */
int asks_verdict(const struct awards *a); /* whether one asks what xm23_judge finds */

#endif
