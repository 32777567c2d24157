/*
 * The sources that a paper brings, `source FILE`: read, assembled by the library, their names, and their bytes, which
 * no other line of the paper may state.
 */
#include <stdlib.h>
#include <string.h>

#include "desk.h"
#include "paper_word.h"
#include "source.h"

/* ---- names */

static int by_letters(const void *a, const void *b)
{
    const struct name *x = (const struct name *)a, *y = (const struct name *)b;
    size_t length = x->length < y->length ? x->length : y->length;
    int order = memcmp(x->at, y->at, length);
    return order ? order : (x->length > y->length) - (x->length < y->length);
}

static const struct name *find_name(const struct paper *p, const char *name, size_t length)
{
    struct name key = {name, length, 0, 0, 0};
    return p->many_names ? (const struct name *)bsearch(&key, p->names, p->many_names, sizeof key, by_letters) : NULL;
}

int64_t name_value(const struct paper *p, const char *name, size_t length)
{
    const struct name *found = find_name(p, name, length);
    return found ? found->value : NOT_ONE;
}

/* The source that a name stands in. */
static const struct brought *source_of(const struct paper *p, const struct name *n)
{
    const struct brought *s = p->sources;
    while (n->at < s->bytes || n->at >= s->bytes + s->length)
        s++;
    return s;
}

/* The names of a source beside those that are there; a name that is there is a mistake. */
static int add_names(struct paper *p, const struct brought *s)
{
    struct name *names;
    size_t many = source_names(s->bytes, s->length, &names);
    const struct name *twin = NULL;
    for (size_t i = 0; i < many && !twin; i++) {
        twin = find_name(p, names[i].at, names[i].length);
        if (twin)
            say_at(s->name, names[i].line, "%.*s is a name of %s:%lu too", (int)twin->length, twin->at,
                   source_of(p, twin)->name, (unsigned long)twin->line);
    }
    if (!twin && many) {
        p->names = (struct name *)room_for(p->names, (p->many_names + many) * sizeof *names);
        memcpy(p->names + p->many_names, names, many * sizeof *names);
        p->many_names += many;
        qsort(p->names, p->many_names, sizeof *names, by_letters);
    }
    free(names);
    return !twin;
}

/* ---- files */

#define MOST_NAME 4096 /* bytes of a file's name */

/* The name as it stands there, in quotes where it has blanks; in the paper's folder, where it does not begin with /. */
static int take_name(struct rest *r, const char *folder, struct text *name)
{
    struct rest before = *r;
    struct text given = {0};
    struct word w;
    const char *slash = strrchr(folder, '/');
    int good = 0;
    if (!next_word(r, &w)) {
        say_at(r->paper->name, r->line, "the name of a source is missing");
    } else if (w.at[0] != '"') {
        add_bytes(&given, w.at, w.length);
        good = 1;
    } else {
        *r = before;
        good = next_text(r, MOST_NAME, &given);
    }
    if (good && (!given.length || memchr(given.at, 0, given.length)))
        good = wrong_word(r, &w, "is no name of a file");
    if (good && given.at[0] != '/' && slash)
        add_bytes(name, folder, (size_t)(slash - folder) + 1);
    if (good)
        add_bytes(name, given.at, given.length);
    drop_text(&given);
    return good && no_more(r);
}

/* No pipe or device is opened, so that nobody waits for its other end. */
static int read_source(const struct paper *p, struct brought *s)
{
    struct text why = {0};
    s->bytes = read_file(s->name, LINKED_FILE, MOST_PROGRAM, &s->length, &why);
    if (!s->bytes)
        say_at(p->name, s->line, "%s: %s", s->name, why.at);
    drop_text(&why);
    return s->bytes ? DONE : UNREADABLE;
}

static int take_source(struct paper *p, struct brought *s)
{
    struct assembled *a = (struct assembled *)room_for(NULL, sizeof *a);
    struct fault f = {0};
    int status = DONE;
    if (!assemble_source(s->bytes, s->length, a, &f))
        status = say_fault(s->name, &f);
    else if (!add_names(p, s))
        status = REFUSED;
    drop_text(&f.why);
    free(a);
    return status;
}

int source_line(struct paper *p, uint32_t line, const char *at, const char *end)
{
    struct rest r = {p, line, at, end};
    struct brought *s = &p->sources[p->many_sources];
    struct text name = {0};
    struct word w;
    int status;
    if (!next_word(&r, &w) || !is_word(&w, "source"))
        return DONE;
    if (p->many_sources == MOST_SOURCES) {
        say_at(p->name, line, "a paper brings %d sources at most", MOST_SOURCES);
        return REFUSED;
    }
    if (!take_name(&r, p->name, &name)) {
        drop_text(&name);
        return REFUSED;
    }
    s->line = line;
    s->name = name.at;
    p->many_sources++;
    status = read_source(p, s);
    return status == DONE ? take_source(p, s) : status;
}

/* ---- bytes */

/* Tells of a byte that a source and another line both state, or two sources. */
static int both_state(const struct paper *p, const struct brought *s, unsigned at)
{
    uint32_t line = laying_line(p, at);
    unsigned long here = line_stating(s->bytes, s->length, at);
    for (const struct brought *other = p->sources; other < s; other++)
        if (other->line == line) {
            say_at(s->name, (uint32_t)here, "$%04X is stated in %s:%lu too", at, other->name,
                   (unsigned long)line_stating(other->bytes, other->length, at));
            return 0;
        }
    say_at(p->name, line, "$%04X is stated in %s:%lu too", at, s->name, here);
    return 0;
}

static int lay_source(struct paper *p, const struct brought *s, struct assembled *a)
{
    struct fault f = {0};
    assemble_source(s->bytes, s->length, a, &f);
    for (unsigned at = 0; at < XM23_MEMORY_SIZE; at++) {
        if (a->set[at] && p->set[at])
            return both_state(p, s, at);
        if (a->set[at]) {
            p->memory[at] = a->memory[at];
            p->set[at] = SRECORD;
            p->laid[at] = s->line;
        }
    }
    return 1;
}

int lay_sources(struct paper *p)
{
    struct assembled *a = (struct assembled *)room_for(NULL, sizeof *a);
    int good = 1;
    for (size_t i = 0; good && i < p->many_sources; i++)
        good = lay_source(p, &p->sources[i], a);
    free(a);
    return good;
}

void drop_sources(struct paper *p)
{
    for (size_t i = 0; i < p->many_sources; i++) {
        free(p->sources[i].name);
        free(p->sources[i].bytes);
    }
    free(p->names);
}
