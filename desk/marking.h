/*
 * marking.h - a sitting: what is told of each program. folder.h and workers.h have what only mark needs.
 */
#ifndef MARKING_H
#define MARKING_H

#include "names.h"
#include "walk.h"

#define MOST_SCREEN 8192 /* bytes of screen text that are kept of one program */

/* What is told of one program. */
struct row {
    const char *name;
    struct text line, says, screen; /* line: empty where it could not be read; says: why it has no closing state */
    struct text handlers, application; /* whether they are sound and undisturbed; empty where it did not run */
    struct text prints; /* of prints.h, as bytes; empty where it did not run, or is the only one */
    char digest[SHA256_TEXT];       /* of the program; empty where it could not be read */
    char page[SHA256_TEXT];         /* of its page, where mark has written it */
    uint32_t steps, deepest;
    uint64_t met; /* the awards of the paper, as judge_awards has them */
    int agrees;  /* 1 yes, 0 no, -1 no line was expected */
    int problem; /* errno where its page could not be written; UNMARKED */
};

enum { UNMARKED = -1 }; /* what could not be marked has a row and a page that say so */

struct sitting {
    struct paper *paper;
    char paper_digest[PAPER_DIGESTS]; /* of digest_paper */
    char **names;
    size_t many;
    unsigned workers;
    enum reading kind; /* of the programs */
    size_t shared;     /* folders that all names begin with */
    int sound; /* handlers are judged, whatever the paper */
    struct alike *alike; /* of alike.h: what is found of copies, where it is looked for */
    int asked; /* pages are about the step of this count */
    uint32_t around;
};

void drop_row(struct row *r);
void pack_row(struct text *t, size_t number, const struct row *r);
int unpack_row(const char *bytes, size_t length, size_t number, struct row *r); /* 0: they are no row of this number */

struct verdict;

/* One program of a sitting, run. `before` and `after` are there where it ran. */
struct marked {
    struct row row;
    struct program program;
    struct machine before, after, scratch;
    struct outcome o;
    struct text screen; /* all of it, of which the row has the first bytes */
    struct text shown[DEVICES]; /* what each device showed, where an award may ask */
    struct walk walk;
    struct names names;
    struct verdict *verdict; /* of sound.h; NULL where it was not judged */
    struct fault fault; /* why it did not run, where it could be read */
    int ran;
};

/* Runs a program, or tells in its row why it has no closing state. 0 where that could not be done. What `m` held
 * before counts for nothing. */
int mark_program(const struct sitting *s, const char *name, struct marked *m);
void leave_unmarked(const struct sitting *s, const char *name, const char *why, struct marked *m); /* its row says so */
void drop_marked(struct marked *m);

#endif
