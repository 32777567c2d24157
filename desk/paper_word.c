/* The words of a line of a paper: numbers, names of its sources, texts in quotes. */
#include <stdio.h>
#include <string.h>

#include "paper_word.h"

int is_blank(char c)
{
    return c == ' ' || c == '\t';
}

static void skip_blanks(struct rest *r)
{
    while (r->at < r->end && is_blank(*r->at))
        r->at++;
}

int next_word(struct rest *r, struct word *w)
{
    skip_blanks(r);
    if (r->at == r->end || *r->at == ';')
        return 0;
    w->at = r->at;
    if (r->end - r->at >= 3 && r->at[0] == '\'' && r->at[2] == '\'')
        r->at += 3;
    while (r->at < r->end && !is_blank(*r->at))
        r->at++;
    w->length = (size_t)(r->at - w->at);
    return 1;
}

int is_word(const struct word *w, const char *text)
{
    return strlen(text) == w->length && memcmp(text, w->at, w->length) == 0;
}

int wrong_word(const struct rest *r, const struct word *w, const char *what)
{
    say_of(r->paper->name, r->line, w->at, w->length, what);
    return 0;
}

static int missing(const struct rest *r, const char *what)
{
    say_at(r->paper->name, r->line, "%s is missing", what);
    return 0;
}

/* ---- numbers and names */

static int digit(char c, unsigned base)
{
    static const char digits[] = "0123456789abcdef0123456789ABCDEF";
    const char *at = c ? strchr(digits, c) : NULL;
    int value = at ? (int)(at - digits) % 16 : 16;
    return value < (int)base ? value : -1;
}

/* The digits of a number in a base; -1 where one is none of the base, or the number is above `most`. */
static int64_t digits_of(const char *at, size_t length, unsigned base, uint64_t most)
{
    uint64_t value = 0;
    if (!length)
        return -1;
    for (size_t i = 0; i < length; i++) {
        int d = digit(at[i], base);
        if (d < 0 || (value = value * base + (unsigned)d) > most)
            return -1;
    }
    return (int64_t)value;
}

/* Whether a word could be a name of a source: a letter first. What is none is in no table of names. */
static int like_name(const struct word *w)
{
    return w->length && w->at[0] >= 'A' && w->at[0] <= 'Z';
}

/*
 * The papers of the machine write # for base sixteen: behind a # neither a digit of base sixteen nor a leading zero is
 * taken, so that #0800 is a mistake and not 800.
 */
static int64_t number_of(const struct rest *r, const struct word *w)
{
    size_t mark = w->length && (w->at[0] == '$' || w->at[0] == '#');
    size_t minus = mark && w->at[0] == '#' && w->length > 1 && w->at[1] == '-';
    const char *at = w->at + mark + minus;
    size_t length = w->length - mark - minus;
    int64_t value;
    if (like_name(w))
        return name_value(r->paper, w->at, w->length);
    if (w->length == 3 && w->at[0] == '\'' && w->at[2] == '\'')
        return (unsigned char)w->at[1];
    if (mark && w->at[0] == '#' && length > 1 && at[0] == '0')
        return NOT_ONE;
    value = digits_of(at, length, mark && w->at[0] == '$' ? 16 : 10, UINT32_MAX);
    return value < 0 ? NOT_ONE : minus ? -value : value;
}

int64_t value_of(const struct rest *r, const struct word *w, int64_t least, uint64_t most)
{
    int64_t value = number_of(r, w);
    return value < least || (value > 0 && (uint64_t)value > most) ? NOT_ONE : value;
}

/* Whether a word that is no number behind # would be one behind $: base sixteen was meant. */
static int means_sixteen(const struct word *w)
{
    return w->length > 1 && w->at[0] == '#' && digits_of(w->at + 1, w->length - 1, 16, UINT32_MAX) >= 0 &&
           (w->at[1] == '0' || digits_of(w->at + 1, w->length - 1, 10, UINT32_MAX) < 0);
}

/* Base sixteen as C writes it. */
static int like_c(const struct word *w)
{
    return w->length > 2 && w->at[0] == '0' && (w->at[1] | 32) == 'x' &&
           digits_of(w->at + 2, w->length - 2, 16, UINT32_MAX) >= 0;
}

int no_number(const struct rest *r, const struct word *w, const struct word *whole, const char *what)
{
    int64_t value = like_name(w) && r->paper->many_sources ? number_of(r, w) : 0;
    char says[64];
    if (means_sixteen(w))
        return wrong_word(r, w, "is no number: # is base ten, $ base sixteen");
    if (like_c(w))
        return wrong_word(r, w, "is no number: base sixteen is $ and the digits");
    if (value == NOT_ONE)
        return wrong_word(r, w, "is no name that a source of the paper gives");
    snprintf(says, sizeof says, "comes to %lld, which does not fit", (long long)value);
    return value ? wrong_word(r, w, says) : wrong_word(r, whole, what);
}

int next_value(struct rest *r, int64_t least, uint64_t most, const char *what, int64_t *number)
{
    struct word w;
    char says[96];
    if (!next_word(r, &w))
        return missing(r, what);
    *number = value_of(r, &w, least, most);
    snprintf(says, sizeof says, "is no %s, %lld to %llu", what, (long long)least, (unsigned long long)most);
    return *number != NOT_ONE || no_number(r, &w, &w, says);
}

int next_number(struct rest *r, uint64_t most, const char *what, uint64_t *number)
{
    int64_t value = 0;
    int good = next_value(r, 0, most, what, &value);
    *number = (uint64_t)value;
    return good;
}

/* ---- texts */

/* What stands behind a backslash, as one byte; how many characters it has, 0 where it is nothing that there is. */
static size_t escaped(const char *at, const char *end, char *byte)
{
    static const char letters[] = "nrt\"\\", bytes[] = "\n\r\t\"\\";
    const char *letter = at < end && *at ? strchr(letters, *at) : NULL;
    int64_t value = end - at >= 3 && *at == 'x' ? digits_of(at + 1, 2, 16, 0xFF) : -1;
    *byte = letter ? bytes[letter - letters] : (char)value;
    return letter ? 1 : value >= 0 ? 3 : 0;
}

/* The bytes up to the quote that ends them, behind which the place is then; else it is where the mistake is. */
static int take_quoted(struct rest *r, struct text *to)
{
    while (r->at < r->end && *r->at != '"') {
        char byte = *r->at;
        size_t many = byte == '\\' ? escaped(r->at + 1, r->end, &byte) : 0;
        if (*r->at == '\\' && !many)
            return 0;
        add_bytes(to, &byte, 1);
        r->at += many + 1;
    }
    return r->at < r->end && *r->at++ == '"';
}

/* Tells what is wrong with the rest of the line. */
static int wrong_rest(const struct rest *r, const char *what)
{
    struct word w = {r->at, (size_t)(r->end - r->at)};
    return wrong_word(r, &w, what);
}

int next_text(struct rest *r, size_t most, struct text *to)
{
    skip_blanks(r);
    if (r->at == r->end || *r->at != '"')
        return missing(r, "a text in double quotes");
    r->at++;
    add_bytes(to, "", 0);
    if (!take_quoted(r, to))
        return r->at < r->end ? wrong_rest(r, "begins with no byte of a text: behind a backslash stand \", n, r, t, "
                                              "x and two digits, or a backslash")
                              : missing(r, "the double quote that ends a text");
    if (r->at < r->end && !is_blank(*r->at))
        return wrong_rest(r, "stands behind the double quote that ends a text");
    if (to->length > most)
        say_at(r->paper->name, r->line, "a text has at most %lu bytes", (unsigned long)most);
    return to->length <= most;
}

/* ---- the rest of a line */

int next_keyword(struct rest *r, const char *keyword)
{
    struct word w;
    char says[64];
    snprintf(says, sizeof says, "stands where '%s' should", keyword);
    if (!next_word(r, &w))
        return missing(r, keyword);
    return is_word(&w, keyword) || wrong_word(r, &w, says);
}

int no_more(struct rest *r)
{
    struct word w;
    return !next_word(r, &w) || wrong_word(r, &w, "is one word too many");
}

int claim_line(const struct rest *r, uint32_t *line, const char *what)
{
    if (*line) {
        say_at(r->paper->name, r->line, "%s is on line %lu already", what, (unsigned long)*line);
        return 0;
    }
    *line = r->line;
    return 1;
}
