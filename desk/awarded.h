/*
 * awarded.h - a run and what it is awarded: the closing of a run for award.c, and the words for it.
 */
#ifndef AWARDED_H
#define AWARDED_H

#include "sound.h"

/* How a run closed: `after` it, with what its outcome has of each device. The verdict is NULL where no award asks. */
struct closing closing_of(const struct machine *after, const struct outcome *o, const struct verdict *v);

/* A run that is taken for its awards. */
struct awarded {
    struct machine after;
    struct outcome o;
    struct text shown[DEVICES];
    struct verdict *verdict; /* NULL where no award asks */
    uint64_t met;            /* for total_of and passes of award.h */
};

/* Takes the run that a paper asks for, from a machine before its first step, which stays as it is. What `w` held
 * before counts for nothing. */
void award_run(const struct paper *p, const struct machine *before, struct awarded *w);
void drop_awarded(struct awarded *w);

/* ---- award_text.c. The bytes of a text that is wanted or found are strangers', and are added as they are. */

void add_criterion(struct text *t, const struct award *a); /* `word $0120 = $001F` */
void add_subject(struct text *t, const struct award *a);   /* `word $0120` */
void add_wanted(struct text *t, const struct award *a);    /* `= $001F` */
void add_found(struct text *t, const struct award *a, const struct closing *c, const struct verdict *v);

/* The lines of the paper that give points, as they are read again. */
void add_award_lines(struct text *t, const struct awards *a);

/* A line for each award: points, criterion, and what is found where it is not met; then the total. As text. */
void add_awarded(struct text *t, const struct awards *a, const struct awarded *w);
void add_total(struct text *t, const struct awards *a, uint64_t met); /* `5 of 8 points, 6 to pass: not passed` */

/* Whether somebody with these awards passes, as far as the paper says who does; told where not. */
int points_enough(const struct paper *p, uint64_t met);

#endif
