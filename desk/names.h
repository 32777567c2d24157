/*
 * names.h - the names that the sources of a run give, the program's and the paper's, and the labels of its bytes.
 */
#ifndef NAMES_H
#define NAMES_H

#include "source.h"

struct names {
    struct name *each; /* in the sources' bytes: the program's, then those of the paper's sources */
    size_t many;
    uint16_t label[XM23_MEMORY_SIZE]; /* of a byte: the label from which on every byte is stated, from 1 on; 0: none */
};

/* Of what was there nothing is kept, and nothing is freed. The sources have been accepted, and are there as long. `p`
 * may be NULL: no paper. */
void gather_names(struct names *n, const struct paper *p, const struct program *program);
void free_names(struct names *n);

/* How many values the sources give a name: 0, 1, which is then `value`, or 2, of which it has the first. */
int named_value(const struct names *n, const char *name, int64_t *value);

/* The label of a byte, and how far behind it the byte is: `NEXT+4`; of a long name the first letters. 0: none. */
int add_label(struct text *t, const struct names *n, unsigned at);
void add_name_letters(struct text *t, const struct name *n);
const struct name *label_at(const struct names *n, unsigned at); /* the label that is at the byte; NULL: none */
int is_only(const struct names *n, const struct name *one);      /* no other source has this name too */

#endif
