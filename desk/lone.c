/*
 * A name that stands alone on its line and that no line uses: a label for nothing, or an instruction without operands
 * that is misspelt. Which lines have a name and no statement is told by xm23_places; here words are compared.
 */
#include <stdlib.h>
#include <string.h>

#include "lone.h"

static int by_letters(const void *one, const void *other)
{
    const struct name *a = (const struct name *)one, *b = (const struct name *)other;
    int order = memcmp(a->at, b->at, a->length < b->length ? a->length : b->length);
    return order ? order : (a->length > b->length) - (a->length < b->length);
}

static int by_lines(const void *one, const void *other)
{
    const struct name *a = (const struct name *)one, *b = (const struct name *)other;
    return (a->line > b->line) - (a->line < b->line);
}

static int is_letter(char c)
{
    return (c >= 'A' && c <= 'Z') || (c >= '0' && c <= '9');
}

/* Of names in the order of their letters those that a text uses, without its comments, are marked: line 0. Where a name
 * is given it is not used. */
static void mark_used(struct name *names, size_t many, const char *text, size_t length)
{
    struct name word = {0};
    for (size_t at = 0; at < length; at++) {
        const char *lf = text[at] == ';' ? (const char *)memchr(text + at, '\n', length - at) : NULL;
        struct name *found;
        if (text[at] == ';')
            at = lf ? (size_t)(lf - text) : length;
        if (at >= length || !is_letter(text[at]))
            continue;
        word.at = text + at;
        while (at < length && is_letter(text[at]))
            at++;
        word.length = (size_t)(text + at-- - word.at); /* what stands behind the word is looked at next */
        found = (struct name *)bsearch(&word, names, many, sizeof word, by_letters);
        if (found && found->at != word.at)
            found->line = 0;
    }
}

size_t lone_names(const char *source, size_t length, const char *also, struct name **names)
{
    size_t given = source_names(source, length, names), many = 0;
    for (size_t i = 0; i < given; i++)
        if ((*names)[i].kind == XM23_PLACE_NOTHING)
            (*names)[many++] = (*names)[i];
    qsort(*names, many, sizeof **names, by_letters);
    mark_used(*names, many, source, length);
    mark_used(*names, many, also, strlen(also));
    given = many;
    many = 0;
    for (size_t i = 0; i < given; i++)
        if ((*names)[i].line)
            (*names)[many++] = (*names)[i];
    qsort(*names, many, sizeof **names, by_lines);
    return many;
}

void add_lone(struct text *t, const struct name *n)
{
    addf(t, "'");
    add_name_letters(t, n);
    addf(t, "' is no instruction: alone on its line it is a name, and nothing uses it");
}
