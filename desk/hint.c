/* Hints by the refusal, and those for names (18): which one, and why. */
#include <string.h>

#include "hint_ask.h"
#include "xm23.h"

/* Whether a word of the line stands where a value may: it would fit as a number. */
static int is_used(const char *line, const struct span *w)
{
    char tried[MOST_LINE + 1];
    return put_part(tried, line, w, "#0") && line_fits(tried);
}

/* A name that no line gives. */
static int unknown(struct text *t, const char *source, size_t length, const char *line, const struct span *w)
{
    if (giving_line(source, length, 1, line + w->at, w->length))
        return 0;
    add_column(t, w->at);
    addf(t, "no line gives the name '%.*s'", (int)w->length, line + w->at);
    return 1;
}

/* A name that a line uses for a value. */
static int is_use(const char *line, const struct span *w)
{
    return !is_marked(line, w) && is_name(line, w) && is_used(line, w);
}

/* Whether names are what is wrong with the line: with a number for each that it uses nothing is. */
static int by_names(const char *source, size_t length, uint32_t number, const char *line, size_t from)
{
    struct text with = {0};
    struct span w = {from, 0};
    size_t done = 0;
    int fault;
    while (next_run(line, w.at + w.length, &w))
        if (is_use(line, &w)) {
            add_bytes(&with, line + done, w.at - done);
            addf(&with, "#0");
            done = w.at + w.length;
        }
    addf(&with, "%s", line + done);
    fault = at_fault_with(source, length, number, with.at, XM23_REFUSED_SOURCE_NAME);
    drop_text(&with);
    return !fault;
}

/* One that this line or one below gives, where it is needed above. */
static int below(struct text *t, const char *source, size_t length, uint32_t number, const char *line,
                 const struct span *w)
{
    uint32_t given = giving_line(source, length, 1, line + w->at, w->length);
    if (given < number)
        return 0;
    add_column(t, w->at);
    addf(t, "'%.*s' is given on line %lu: ORG, EQU and BSS need it above", (int)w->length, line + w->at,
        (unsigned long)given);
    return 1;
}

/* What is wrong with the names that a line uses. */
static int hint_uses(struct text *t, const char *source, size_t length, uint32_t number, const char *line, size_t from)
{
    struct span w = {from, 0};
    while (next_run(line, w.at + w.length, &w))
        if (is_use(line, &w) && unknown(t, source, length, line, &w))
            return 1;
    w.at = from;
    w.length = 0;
    if (!by_names(source, length, number, line, from))
        return 0;
    while (next_run(line, w.at + w.length, &w))
        if (is_use(line, &w) && below(t, source, length, number, line, &w))
            return 1;
    return 0;
}

void hint_name(struct text *t, const char *source, size_t length, uint32_t number)
{
    char line[MOST_LINE + 1];
    struct span first;
    uint32_t given;
    if (!faulty_line(source, length, number, line) || !next_run(line, 0, &first))
        return;
    if (!is_name(line, &first)) {
        hint_uses(t, source, length, number, line, 0);
        return;
    }
    given = giving_line(source, length, 1, line + first.at, first.length);
    if (given < number) {
        add_column(t, first.at);
        addf(t, "'%.*s' is given already, on line %lu", (int)first.length, line + first.at, (unsigned long)given);
    } else if (!hint_uses(t, source, length, number, line, first.at + first.length)) {
        add_column(t, first.at);
        addf(t, "'%.*s' is the 1,025th name: a source gives at most 1,024", (int)first.length, line + first.at);
    }
}

void add_hint(struct text *t, const char *source, size_t length, unsigned refusal, uint32_t line)
{
    if (refusal == XM23_REFUSED_SOURCE_FORM)
        hint_form(t, source, length, line);
    else if (length > MOST_HINTED)
        return;
    else if (refusal == XM23_REFUSED_SOURCE_NAME)
        hint_name(t, source, length, line);
    else if (refusal == XM23_REFUSED_SOURCE_VALUE)
        hint_value(t, source, length, line);
}
