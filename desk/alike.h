/*
 * alike.h - programs of a sitting that are alike: the same words, the same but for registers, runs that two share.
 *
 * What is kept is bounded, however many programs there are: of too many runs every second, fourth and so on, which
 * their hashes choose. Groups are exact always.
 */
#ifndef ALIKE_H
#define ALIKE_H

#include "prints.h"

enum { LEAST_COMMON = 8, MOST_COMMON = 64 }; /* a run counts for nothing in more programs than a quarter, from .. to */

/* What is known of one program. */
struct kin {
    uint32_t words, ignored;
    char same[SHA256_TEXT], shape[SHA256_TEXT];
    /* the first with the same words, another with them, and how many there are; the same of those that are alike but
     * for registers */
    uint32_t same_first, same_other, same_many, shape_first, shape_other, shape_many;
    uint32_t best, partners;          /* the first pair that it is in, from 1, and how many there are; 0: none */
};

/* Two programs that share runs, or words with an ignored bit set: how many words, how many such, the longest run. */
struct pair {
    uint32_t a, b, words, ignored;
    uint16_t at_a, at_b, longest; /* in words */
};

struct alike {
    size_t many, compared;
    struct kin *each;
    struct seen *table;
    size_t filled;
    uint64_t mask; /* runs are kept whose hashes have none of these bits */
    struct pair *pairs;
    size_t many_pairs;
    uint64_t *common; /* the runs that count for nothing, in order */
    size_t many_common;
};

void open_alike(struct alike *x, size_t many);
void take_alike(struct alike *x, size_t i, const struct prints *f);
void find_alike(struct alike *x);
void drop_alike(struct alike *x);

/* How many programs may share a run that counts. */
size_t most_common(const struct alike *x);

/* What is to be told of one, by the names of all: empty where nothing is. The text has bytes of strangers. */
void add_alike(struct text *t, const struct alike *x, char **names, size_t i);

#endif
