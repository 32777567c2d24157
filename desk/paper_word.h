/*
 * paper_word.h - the words of a line of a paper: numbers, names of its sources, texts in quotes. What can fail tells
 * the mistake with the line, and gives 0.
 */
#ifndef PAPER_WORD_H
#define PAPER_WORD_H

#include "paper.h"

/* What is left of a line. */
struct rest {
    struct paper *paper;
    uint32_t line;
    const char *at, *end;
};

/* A word of a line; a character in quotes is one, be it a blank. */
struct word {
    const char *at;
    size_t length;
};

int is_blank(char c);

/* The next word; none at the line's end and before a comment, which is no mistake. */
int next_word(struct rest *r, struct word *w);
int is_word(const struct word *w, const char *text);

/* Tells what is wrong with a word. 0. */
int wrong_word(const struct rest *r, const struct word *w, const char *what);

/*
 * The one reader of numbers. A number as a source has it, $ base sixteen and # base ten; base ten without a mark too; a
 * character in quotes; or a name that a source of the paper gives. NOT_ONE, which is not told, where it is none, or not
 * from `least` to `most`, which is at most UINT32_MAX. no_number tells of such a word, and where nothing plain can be
 * said of it, of the `whole` that it is a part of, by `what`.
 */
#define NOT_ONE INT64_MIN

int64_t value_of(const struct rest *r, const struct word *w, int64_t least, uint64_t most);
int no_number(const struct rest *r, const struct word *w, const struct word *whole, const char *what);

/* The next word as a number; `what` names it in a message. */
int next_value(struct rest *r, int64_t least, uint64_t most, const char *what, int64_t *number);
int next_number(struct rest *r, uint64_t most, const char *what, uint64_t *number); /* from 0 on */

/* The next word must be this one. */
int next_keyword(struct rest *r, const char *keyword);

/* A text in double quotes, of at most so many bytes: any bytes, and \" \\ \n \r \t \xHH. It may be empty. */
int next_text(struct rest *r, size_t most, struct text *to);

int no_more(struct rest *r); /* nothing but a comment follows */

/* Names the line as that of a part, which has one line only. */
int claim_line(const struct rest *r, uint32_t *line, const char *what);

#endif
