/*
 * hint_ask.h - lines of a refused source and their words, what the library says of them, and the hints by the refusal.
 */
#ifndef HINT_ASK_H
#define HINT_ASK_H

#include "hint.h"

#define MOST_LINE 200        /* bytes of a line that is looked at */
#define MOST_HINTED 0x40000  /* bytes of a source that is assembled again for a hint */
#define HINT_NAME "HINTVALUE" /* a name that is put into sources */

struct span {
    size_t at, length;
};

/* A line without its comment and its end; 0 where it is too long or has a zero byte. */
int faulty_line(const char *source, size_t length, uint32_t number, char *line);
size_t line_start(const char *source, size_t length, uint32_t number); /* `length` or more: there is no such line */

/* The next run of letters, digits and underscores that begins at or behind a place; 0: none. */
int next_run(const char *line, size_t from, struct span *w);
int is_run(const char *line, const struct span *w, const char *word);
int is_marked(const char *line, const struct span *w); /* # or $ or a dot stands before it: it is no word */

int line_fits(const char *line);                            /* it is a line of the language */
int is_name(const char *line, const struct span *w);   /* what may be one */
int is_register(const char *line, const struct span *w);

/* The line with a part replaced, which must fit as one too; 0 where it would be too long. */
int put_part(char *to, const char *line, const struct span *part, const char *with);

/* A statement: its label, of no length where there is none; its first word; its operands, as many as there are. */
struct parts {
    struct span label, word, operands[4];
    unsigned many;
};

void cut_line(const char *line, struct parts *p);

/* Whether the numbered line, which is above END, is at fault with a refusal where it is replaced. Whether a value, all
 * names of the source given, leaves 32 bits or divides by zero. */
int at_fault_with(const char *source, size_t length, uint32_t number, const char *with, unsigned refusal);
int leaves_bits(const char *source, size_t length, uint32_t number, const char *with, const char *value);

/* The first line from one on, before END, that gives the name; 0: none does. */
uint32_t giving_line(const char *source, size_t length, uint32_t from, const char *name, size_t letters);

/* ---- hint_form.c, hint_value.c: by the refusal */

void add_column(struct text *t, size_t at); /* of a place of the line, from 0 */
void hint_form(struct text *t, const char *source, size_t length, uint32_t number);
void hint_name(struct text *t, const char *source, size_t length, uint32_t number);
void hint_value(struct text *t, const char *source, size_t length, uint32_t number);

#endif
