/*
 * walk.h - some steps of a run, by their trace and their journal.
 */
#ifndef WALK_H
#define WALK_H

#include "events.h"

#define PRIORITY_7 0xE0 /* in a PSW */
#define FEW_STEPS 32    /* rows of a short table */

struct step {
    const uint8_t *before, *after; /* the journal's record; the state record after it */
    uint8_t devices[16], bytes[8]; /* what it left in the device bytes, and at the journal's address */
    uint8_t kind, number;          /* as the trace has them; of a halt the number is the fault */
    uint8_t events, fetched;       /* events due; whether `word` is one that it decoded */
    uint8_t stored;                /* bytes stored or pushed from `at` on */
    uint16_t at, word, frame;      /* frame: the newest open after it, of those of the walk; 0 none */
};

/* A frame that one of the steps opened. */
struct frame {
    uint16_t older, sp, step;
    uint8_t kind, number;
};

/* Which steps of a run a walk has. Steps are counted from the first of the run on. */
struct part {
    uint32_t first, many;   /* at most MOST_WALK */
    uint32_t look, told;    /* of these: done where tables look at the machine; those that a table of few ends with */
    uint32_t idle, behind;  /* the last steps of the run, which change nothing; steps of the run behind these */
    int asked;              /* it is about a step that was asked for */
};

struct walk {
    uint8_t journal[XM23_JOURNAL_SIZE * MOST_WALK], log[XM23_LOG_SIZE * MOST_WALK];
    uint8_t trace[XM23_TRACE_SIZE * MOST_TRACE];
    struct step steps[MOST_WALK];
    struct frame frames[MOST_WALK + 1];
    struct fates fates;
    struct picture picture;
    struct machine end;           /* after the last step */
    struct part part;
    uint32_t many, shown, before; /* steps; log records of them; those of the run before them */
    unsigned many_frames, strays; /* strays: returns that pulled with none of these frames open */
};

/* Walks a part of a run that is taken from `m`, which is left as it was before the first step of the part. */
void walk_run(struct walk *w, const struct paper *p, struct machine *m, const struct part *part);

/* Walks so many steps, at most MOST_WALK, from `m`, which stays as it is: no fates, no picture. */
void walk_on(struct walk *w, const struct paper *p, struct machine *m, uint32_t many);

/* Goes back so many steps from where so many of the walk are done. */
void walk_back(const struct walk *w, struct machine *m, uint32_t done, uint32_t many);

uint32_t step_count(const struct step *s);
unsigned step_pc(const struct step *s); /* before it */
int step_wrote(const struct step *s, unsigned at);        /* whether it stored or pushed the byte, or as below */
int device_written(const struct step *s, unsigned at);    /* whether the device byte is another, or was stored */
int stores_device(const struct step *s);                  /* whether it stored into device bytes, from `at` on */

/* The last of so many steps from `m` on that wrote a byte, counted from 1 on; 0: none did. `m` is run to their end. */
uint32_t last_writer(struct walk *w, const struct paper *p, struct machine *m, uint32_t many, unsigned at);

/* ---- part.c */

/* How many of the last steps of a run left memory and record as they were, the step count aside, without an event. */
uint32_t idle_steps(const struct paper *p, const struct machine *before, const struct machine *after, uint32_t steps);

/* The part of a run of so many steps that a page has: its last steps, or those around one that is asked for. */
struct part closing_part(uint32_t steps, uint32_t idle);
struct part part_around(uint32_t steps, uint32_t step);

int step_word(const char *word, uint32_t *count); /* the count that a word of a command is, base ten; 0: it is none */
#define NO_STEP "is no step, 0 to 4294967295"     /* what is then wrong with it */

/* The steps of a run before the step of a count, which it takes, or, with `end`, which it ends before: 0, which has
 * been told of the program, where it does neither. */
int find_step(const char *name, const struct machine *before, uint32_t steps, uint32_t count, int end, uint32_t *step);

/* ---- step.c: a step in words */

const char *fault_name(unsigned fault);
void add_act(struct text *t, unsigned kind, unsigned number); /* of the trace; of a halt the fault */
void add_what(struct text *t, const struct step *s); /* the instruction, or what else it was */
void add_left(struct text *t, const struct step *s); /* registers and bytes that it left, PC aside */

#endif
