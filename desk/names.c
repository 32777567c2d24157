/* The names that the sources of a run give, which the library tells: which label a byte is at or behind. */
#include <stdlib.h>
#include <string.h>

#include "names.h"

enum { MOST_LETTERS = 24 }; /* of a name that is shown */

static int is_label(const struct name *n)
{
    return n->kind != XM23_PLACE_EQU && n->value >= 0 && n->value < XM23_MEMORY_SIZE;
}

/* The labels of one source over its bytes: each as far as bytes are stated without a gap, or as the next one. */
static void put_labels(struct names *n, size_t from, const uint8_t *set)
{
    static uint16_t begins[XM23_MEMORY_SIZE];
    uint16_t label = 0;
    memset(begins, 0, sizeof begins);
    for (size_t i = n->many; i-- > from;)
        if (is_label(&n->each[i]))
            begins[n->each[i].value] = (uint16_t)(i + 1);
    for (unsigned at = 0; at < XM23_MEMORY_SIZE; at++) {
        label = begins[at] ? begins[at] : set[at] ? label : 0;
        if (label)
            n->label[at] = label;
    }
}

static void add_source_names(struct names *n, const char *source, size_t length)
{
    static struct assembled a;
    struct name *names;
    size_t many = source_names(source, length, &names), from = n->many;
    if (many) {
        find_stated(source, length, &a);
        n->each = (struct name *)room_for(n->each, (from + many) * sizeof *names);
        memcpy(n->each + from, names, many * sizeof *names);
        n->many += many;
        put_labels(n, from, a.set);
    }
    free(names);
}

/* The paper lies over the program, and so do its labels. */
void gather_names(struct names *n, const struct paper *p, const struct program *program)
{
    memset(n, 0, sizeof *n);
    for (unsigned i = 0; i < program->many; i++)
        if (is_source(program->files[i].name))
            add_source_names(n, program->files[i].bytes, program->files[i].length);
    for (unsigned at = 0; p && at < XM23_MEMORY_SIZE; at++)
        if (p->set[at])
            n->label[at] = 0;
    for (size_t i = 0; p && i < p->many_sources; i++)
        add_source_names(n, p->sources[i].bytes, p->sources[i].length);
}

void free_names(struct names *n)
{
    free(n->each);
    n->each = NULL;
    n->many = 0;
}

static int is_called(const struct name *n, const char *name, size_t length)
{
    return length == n->length && memcmp(name, n->at, length) == 0;
}

int named_value(const struct names *n, const char *name, int64_t *value)
{
    int found = 0;
    for (size_t i = 0; i < n->many; i++) {
        if (!is_called(&n->each[i], name, strlen(name)))
            continue;
        if (found && *value != n->each[i].value)
            return 2;
        *value = n->each[i].value;
        found = 1;
    }
    return found;
}

void add_name_letters(struct text *t, const struct name *n)
{
    int cut = n->length > MOST_LETTERS;
    addf(t, "%.*s%s", cut ? MOST_LETTERS : (int)n->length, n->at, cut ? ".." : "");
}

static const struct name *label_of(const struct names *n, unsigned at)
{
    return n->label[at] ? &n->each[n->label[at] - 1] : NULL;
}

int add_label(struct text *t, const struct names *n, unsigned at)
{
    const struct name *label = label_of(n, at);
    if (!label)
        return 0;
    add_name_letters(t, label);
    if (label->value != at)
        addf(t, "+%u", at - (unsigned)label->value);
    return 1;
}

const struct name *label_at(const struct names *n, unsigned at)
{
    const struct name *label = label_of(n, at);
    return label && label->value == at ? label : NULL;
}

int is_only(const struct names *n, const struct name *one)
{
    size_t many = 0;
    for (size_t i = 0; i < n->many; i++)
        many += (size_t)is_called(&n->each[i], one->at, one->length);
    return many == 1;
}
