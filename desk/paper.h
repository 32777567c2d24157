/*
 * paper.h - what a setter writes: a paper, read and judged.
 */
#ifndef PAPER_H
#define PAPER_H

#include "award.h"
#include "file.h"
#include "xm23.h"

enum { FIELDS = 14 }; /* of the line of the sheet */

struct event {
    uint32_t line, step;
    unsigned device, byte;
};

enum { SRECORD = 1, DATA = 2 };

/* A source that the paper brings: the line that names it, and the file. */
struct brought {
    uint32_t line;
    char *name, *bytes;
    size_t length;
};

enum { MOST_SOURCES = 16 };

struct paper {
    const char *name;
    char *bytes;
    size_t length;
    char *title, *expected;                  /* NULL: none. expected: in capitals, a blank between two fields */
    uint8_t record[XM23_RECORD_SIZE];        /* the start; PC 0 where pc_line is 0 */
    uint8_t memory[XM23_MEMORY_SIZE];        /* what the paper lays over the program .. */
    uint8_t set[XM23_MEMORY_SIZE];           /* .. where this is not 0: DATA, or SRECORD, which may be code */
    uint32_t laid[XM23_MEMORY_SIZE];         /* the line that lays the byte, but that of an S-record */
    uint8_t uses[XM23_USES_SIZE], devices;   /* for stack bytes */
    uint64_t steps, priority;
    struct event *events, *made;             /* of event lines; of other lines, until they are merged with these */
    size_t many_events, many_made;
    uint32_t full_line;                      /* of the first event that is one too many; 0: none is */
    uint8_t *event_bytes;
    struct brought sources[MOST_SOURCES];
    size_t many_sources;
    struct name *names;                      /* what all of them give, in the order of their letters */
    size_t many_names;
    struct awards awards;
    struct text srec;                        /* its S-record lines, and where each stands */
    uint32_t *srec_lines;
    size_t many_srec;
    /* the lines that name each part; 0: none */
    uint32_t title_line, steps_line, expected_line, priority_line, start_line[14], device_line[8], vector_line[16],
        use_line[8];
};

/* Reads and judges a paper. DONE, or a status that has been told. take_paper has its bytes already, which it keeps or
 * frees. */
int read_paper(const char *name, struct paper *p);
int take_paper(const char *name, char *bytes, size_t length, struct paper *p);
void drop_paper(struct paper *p);

/* One line, by its bytes: DONE, or a status that has been told. */
int paper_line(struct paper *p, uint32_t line, const char *at, const char *end);

/* The line that lays a byte; 0: none does. */
uint32_t laying_line(const struct paper *p, unsigned at);

/* The digests of the paper and of each source that it brings, in the order of its lines, a blank between two. */
#define PAPER_DIGESTS ((MOST_SOURCES + 1) * SHA256_TEXT)

int digest_paper(const struct paper *p, char *digits); /* 0 where the library fails */

/* Whether `to` is the paper's file or one of a source that it brings, which is then told. */
int overwrites_paper(const char *to, const struct paper *p);

/* ---- paper_source.c: the sources that a paper brings */

/* A line that names one is taken, any other passed over: DONE, or a status that has been told. */
int source_line(struct paper *p, uint32_t line, const char *at, const char *end);
int lay_sources(struct paper *p); /* 0 where a byte is stated elsewhere too, which has been told */
int64_t name_value(const struct paper *p, const char *name, size_t length); /* NOT_ONE of paper_word.h: no such name */
void drop_sources(struct paper *p);

/* ---- paper_events.c: the list of events */

void merge_events(struct paper *p); /* those that lines make among the others: by steps, of one step by lines */
void pack_events(struct paper *p);

/* ---- paper_award.c: what points are given for */

int judge_pass(const struct paper *p); /* whether somebody can pass; told where nobody can */
void drop_awards(struct paper *p);
const char *relation_word(enum relation relation);

/* ---- expect.c: the line that a paper expects */

/* What follows the word `expect`, into `expected`; 0 where it has a mistake, which has been told. */
int take_expected(struct paper *p, uint32_t line, const char *at, const char *end);

/* A line that was printed, in capitals, a blank between two fields; NULL where it is none, which has been told. */
char *take_printed(const char *name, uint32_t line, const char *at, const char *end);

/* Whether a line is the expected one, * for any field: 1 yes, 0 no, as of an empty line, -1 where none is expected. */
int as_expected(const struct paper *p, const char *line);

/* Whether a field may have a value, and what is expected of it; of a paper that expects 14 fields. */
int expects_field(const struct paper *p, int i, const char *value, char *expected, size_t room);

/* The part of the start that a line names, by its number: R0 to R7, PSW, CEX, HALTED, COUNT, LINES. */
enum { START_PSW = 8, START_CEX = 9, START_HALTED = 10, START_COUNT = 11, START_LINES = 12, STARTS = 13 };

/* Each name of a part, and where it stands in the record; of two names of one part the one that is printed first. */
struct start_part {
    const char *name; /* NULL behind the last */
    unsigned part, at, bytes;
};

extern const struct start_part start_parts[];

/* ---- paper_print.c */

/* The paper as it was understood, every event and byte written out: read again it is the same. */
void add_paper(struct text *t, const struct paper *p);

#endif
