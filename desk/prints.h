/*
 * prints.h - what is kept of a program for a comparison with others: digests of its words, and a hash of each run.
 *
 * The words are those of even addresses whose two bytes the program names and the paper does not lay, in the order of
 * their addresses. A run is RUN words at addresses one behind the other. Runs that the paper has too, wherever, and
 * runs of less than LEAST_WORDS different words are left out.
 */
#ifndef PRINTS_H
#define PRINTS_H

#include "program.h"

enum { RUN = 12, LEAST_WORDS = 4, MOST_PRINTS = 3072, MOST_IGNORED = 256 };

/* A run and where it begins; or a word whose ignored bit is set, with a word beside it, and where it stands. */
struct print {
    uint64_t hash;
    uint16_t at;
    uint8_t ignored;
};

/* Digests as text, empty of a program with less words than a run: of the words, and of the words but for registers. */
struct prints {
    uint32_t words, ignored; /* how many; how many of them have their ignored bit set */
    char same[SHA256_TEXT], shape[SHA256_TEXT];
    uint32_t many;
    struct print each[MOST_PRINTS];
};

/* 0 where SHA-256 fails. Of more runs than there is room for those are kept that their hashes choose, in every program
 * the same. */
int take_prints(struct prints *f, const struct paper *p, const struct assembled *a);

/* As bytes, and back: 0 where they are none. */
void pack_prints(struct text *t, const struct prints *f);
int unpack_prints(const char *bytes, size_t length, struct prints *f);

/* The words of a program, and which of them stand in a run that another has too, as the hashes of both tell. */
struct words {
    uint16_t at[XM23_MEMORY_SIZE / 2], word[XM23_MEMORY_SIZE / 2];
    uint8_t shared[XM23_MEMORY_SIZE / 2];
    unsigned many;
};

void take_words(struct words *w, const struct paper *p, const struct assembled *a);
void find_shared(struct words *a, struct words *b, const struct paper *p, const uint64_t *common, size_t many);

#endif
