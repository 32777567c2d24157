/* The line that a paper expects: what its fields may be, and whether a line is the expected one. */
#include <stdio.h>
#include <string.h>

#include "paper.h"

/* The fields of the sheet: so many digits of base sixteen, or, where there are none, a number of base ten. */
static const struct {
    const char *name;
    unsigned digits, most;
} forms[FIELDS] = {
    {"reason", 0, 1}, {"steps", 0, UINT32_MAX}, {"R0", 4, 0}, {"R1", 4, 0}, {"R2", 4, 0}, {"R3", 4, 0}, {"R4", 4, 0},
    {"R5", 4, 0}, {"R6", 4, 0}, {"R7", 4, 0}, {"PSW", 4, 0}, {"CEX", 2, 0}, {"lines", 8, 0}, {"depth", 0, UINT32_MAX},
};

struct word {
    const char *at;
    size_t length;
};

/* The next word; none at the end and before a comment. */
static int next_word(const char **at, const char *end, struct word *w)
{
    while (*at < end && (**at == ' ' || **at == '\t'))
        ++*at;
    w->at = *at;
    while (*at < end && **at != ' ' && **at != '\t')
        ++*at;
    w->length = (size_t)(*at - w->at);
    return w->length && w->at[0] != ';';
}

/* Base ten without a leading zero. */
static int is_number(const char *at, size_t length, uint64_t most)
{
    uint64_t value = 0;
    for (size_t i = 0; i < length; i++) {
        if (at[i] < '0' || at[i] > '9' || (value = 10 * value + (unsigned)(at[i] - '0')) > most)
            return 0;
    }
    return length == 1 || (length && at[0] != '0');
}

/* Who is told of a mistake in a line, and whether * may stand for a field. */
struct reader {
    const char *name;
    uint32_t line;
    int any;
};

static int is_field(const struct reader *r, const struct word *w, unsigned i)
{
    size_t many = 0;
    if (r->any && w->length == 1 && w->at[0] == '*')
        return 1;
    if (!forms[i].digits)
        return is_number(w->at, w->length, forms[i].most);
    while (many < w->length && w->at[many] && strchr("0123456789ABCDEFabcdef", w->at[many]))
        many++;
    return many == w->length && many == forms[i].digits;
}

static int no_field(const struct reader *r, const struct word *w, unsigned i)
{
    const char *star = r->any ? ", or *" : "";
    char says[96];
    if (forms[i].digits)
        snprintf(says, sizeof says, "is no %s: %u digits of base sixteen%s", forms[i].name, forms[i].digits, star);
    else
        snprintf(says, sizeof says, "is no %s: 0 to %u%s", forms[i].name, forms[i].most, star);
    say_of(r->name, r->line, w->at, w->length, says);
    return 0;
}

/* In capitals, a blank before each but the first. */
static void keep(struct text *t, const struct word *w)
{
    if (t->length)
        add_bytes(t, " ", 1);
    for (size_t i = 0; i < w->length; i++) {
        char c = w->at[i];
        c = c >= 'a' && c <= 'z' ? (char)(c - 'a' + 'A') : c;
        add_bytes(t, &c, 1);
    }
}

/* R and the number of a refusal, in one word or two. */
static int take_refusal(struct word w, const char **at, const char *end, struct text *t)
{
    unsigned number = 0;
    if (w.length == 1)
        next_word(at, end, &w);
    else
        w.at++, w.length--;
    for (size_t i = 0; is_number(w.at, w.length, 255) && i < w.length; i++)
        number = 10 * number + (unsigned)(w.at[i] - '0');
    addf(t, "R%u", number);
    return number && strcmp(xm23_refusal_text(number), xm23_refusal_text(256)) != 0;
}

static int take_fields(const struct reader *r, const char **at, const char *end, struct text *t)
{
    for (unsigned i = 0; i < FIELDS; i++) {
        struct word w;
        if (!next_word(at, end, &w)) {
            say_at(r->name, r->line, "the %sline ends before %s: it has 14 fields, or is R and a number",
                   r->any ? "expected " : "", forms[i].name);
            return 0;
        }
        if (!is_field(r, &w, i))
            return no_field(r, &w, i);
        keep(t, &w);
    }
    return 1;
}

static int take_line(const struct reader *r, const char **at, const char *end, struct text *t)
{
    const char *from = *at;
    struct word w;
    if (!next_word(at, end, &w) || (w.at[0] != 'R' && w.at[0] != 'r')) {
        *at = from;
        return take_fields(r, at, end, t);
    }
    if (take_refusal(w, at, end, t))
        return 1;
    say_of(r->name, r->line, w.at, (size_t)(*at - w.at), "is no refusal: R and its number");
    return 0;
}

/* All of a line; NULL where it has a mistake, which has been told. */
static char *whole_line(const struct reader *r, const char *at, const char *end)
{
    struct text t = {0};
    struct word more;
    int good = take_line(r, &at, end, &t);
    if (good && next_word(&at, end, &more)) {
        say_of(r->name, r->line, more.at, more.length, "is one word too many");
        good = 0;
    }
    if (!good)
        drop_text(&t);
    return t.at;
}

int take_expected(struct paper *p, uint32_t line, const char *at, const char *end)
{
    struct reader r = {p->name, line, 1};
    p->expected = whole_line(&r, at, end);
    return p->expected != NULL;
}

char *take_printed(const char *name, uint32_t line, const char *at, const char *end)
{
    struct reader r = {name, line, 0};
    return whole_line(&r, at, end);
}

/* ---- judging */

/* The field at the start of a line; the place is moved to the next one, or to the line's end. */
static struct word first_field(const char **line)
{
    struct word w = {*line, strcspn(*line, " ")};
    *line += w.length;
    *line += **line == ' ';
    return w;
}

static int fits(const struct word *expected, const struct word *w)
{
    return (expected->length == 1 && expected->at[0] == '*') ||
           (expected->length == w->length && memcmp(expected->at, w->at, w->length) == 0);
}

int as_expected(const struct paper *p, const char *line)
{
    const char *expected = p->expected;
    int same = *line != 0;
    if (!expected)
        return -1;
    while (same && *expected && *line) {
        struct word e = first_field(&expected), w = first_field(&line);
        same = fits(&e, &w);
    }
    return same && !*expected && !*line;
}

int expects_field(const struct paper *p, int i, const char *value, char *expected, size_t room)
{
    const char *line = p->expected;
    struct word e = {"", 0}, w = {value, strlen(value)};
    for (int k = 0; k <= i; k++)
        e = first_field(&line);
    snprintf(expected, room, "%.*s", (int)e.length, e.at);
    return fits(&e, &w);
}
