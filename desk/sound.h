/*
 * sound.h - was a run sound: what xm23_judge finds of a program under a paper, and in words.
 *
 * Findings, who ran and who wrote what are replies of the library; the values in a sentence are those of the same run,
 * taken again as far as the step.
 */
#ifndef SOUND_H
#define SOUND_H

#include "marking.h"

enum { KINDS = XM23_FINDINGS_SIZE / XM23_FINDING_SIZE };

#define MOST_JUDGED 100000 /* steps of a paper with events that is judged unasked */

struct verdict {
    uint8_t findings[XM23_FINDINGS_SIZE], writers[XM23_WRITERS_SIZE];
    unsigned refusal, reason;
    uint32_t steps;                 /* done */
    unsigned many, kinds[KINDS];    /* the kinds that are found, in order: see by_step of verdict.c */
    struct text words[KINDS];       /* of each of these, by its kind, a sentence */
    uint8_t acts[KINDS];            /* and what opened the frame, XM23_KIND_ACCEPT and so on */
};

/* ---- verdict.c */

/* Judges the run that a paper asks for, from a machine before its first step, which stays as it is. */
struct verdict *judge_run(const struct paper *p, const struct machine *before);
void drop_verdict(struct verdict *v);

const uint8_t *finding_of(const struct verdict *v, unsigned kind);
void add_sound(struct text *t); /* the sentence of a run in which nothing is found */
void add_deep(struct text *t, const struct verdict *v); /* where the reason is XM23_REASON_DEEP: no further */

/* Whether a run that is judged to its end has no finding about handlers, kinds 0 to 5; about the application, 6 to 8. */
int is_sound(const struct verdict *v);
int is_undisturbed(const struct verdict *v);

/* A cell each: the first finding about handlers, kinds 0 to 5, or about the application, 6 to 8, in short. */
void add_handlers(struct text *t, const struct verdict *v);
void add_application(struct text *t, const struct verdict *v);

/* ---- page_sound.c: the section of a page */

void add_sound_section(struct text *t, const struct marked *m);

/* ---- marking.c: whether a sitting's programs are judged */

int judges(const struct sitting *s);

#endif
