/*
 * A source of the assembler: its bytes, where it starts, its listing. What a line is and where it stands is told by
 * xm23_places, every byte by xm23_assemble. Here lines are cut, at LF and CR LF, and of the language one thing is read:
 * the first word of a line that the library says to have a name.
 */
#include <stdio.h>
#include <stdlib.h>
#include <string.h>

#include "source.h"
#include "hint.h"

enum { MOST_BELOW = 16 }; /* calls for bytes on which later lines stand */

#define PAGE_WIDTH 120 /* bytes of a line on a page */

/* What is told of the lines of an accepted source, up to and with END. */
struct places {
    uint8_t *records;
    size_t many;
};

/* What a listing shows of a line: its bytes, where they are known. */
struct shown {
    uint8_t bytes[2], known;
};

static uint8_t scratch[XM23_MEMORY_SIZE];

static uint64_t assembled(uint8_t *memory, const char *source, size_t length)
{
    return xm23_assemble(memory, XM23_MEMORY_SIZE, (const uint8_t *)source, length);
}

int is_source(const char *name)
{
    size_t length = strlen(name);
    const char *end = name + length - 4;
    return length >= 4 && end[0] == '.' && (end[1] | 32) == 'a' && (end[2] | 32) == 's' && (end[3] | 32) == 'm';
}

/* ---- lines and places */

/* Where the line after the one that starts at a place starts; one past the source behind the last. */
static size_t after_line(const char *source, size_t length, size_t at)
{
    const char *lf = at < length ? (const char *)memchr(source + at, '\n', length - at) : NULL;
    return (lf ? (size_t)(lf - source) : length) + 1;
}

/* Where a line starts, the first being 0. */
static size_t start_of(const char *source, size_t length, size_t line)
{
    size_t at = 0;
    while (line-- > 0)
        at = after_line(source, length, at);
    return at;
}

static struct places read_places(const char *source, size_t length)
{
    struct places p;
    size_t room = 0;
    for (size_t at = 0; at <= length; at = after_line(source, length, at))
        room += XM23_PLACE_SIZE;
    p.records = (uint8_t *)room_for(NULL, room);
    p.many = XM23_PLACES(xm23_places((const uint8_t *)source, length, p.records, room));
    return p;
}

static const uint8_t *record_of(const struct places *p, size_t line)
{
    return p->records + XM23_PLACE_SIZE * line;
}

static uint32_t place_of(const struct places *p, size_t line)
{
    return XM23_PLACE_NUMBER_OF(record_of(p, line));
}

static unsigned bytes_of(const struct places *p, size_t line)
{
    return record_of(p, line)[XM23_PLACE_BYTES];
}

/* The first word of the line that starts at a place: its name, where the library says that it has one. */
static const char *first_word(const char *source, size_t at, size_t *length)
{
    const char *word = source + at + strspn(source + at, " \t");
    *length = strspn(word, "ABCDEFGHIJKLMNOPQRSTUVWXYZ0123456789");
    return word;
}

size_t source_names(const char *source, size_t length, struct name **names)
{
    struct places p = read_places(source, length);
    size_t many = 0, at = 0;
    for (size_t i = 0; i < p.many; i++)
        many += record_of(&p, i)[XM23_PLACE_NAMED];
    *names = (struct name *)room_for(NULL, (many + 1) * sizeof **names);
    many = 0;
    for (size_t i = 0; i < p.many; at = after_line(source, length, at), i++)
        if (record_of(&p, i)[XM23_PLACE_NAMED]) {
            struct name *n = &(*names)[many++];
            n->at = first_word(source, at, &n->length);
            n->value = XM23_PLACE_VALUE_OF(record_of(&p, i));
            n->line = (uint32_t)i + 1;
            n->kind = record_of(&p, i)[XM23_PLACE_KIND];
        }
    free(p.records);
    return many;
}

/* ---- a source assembled */

void find_stated(const char *source, size_t length, struct assembled *a)
{
    struct places p = read_places(source, length);
    memset(a->set, 0, sizeof a->set);
    a->pc = 0;
    for (size_t i = p.many; i-- > 0;) {
        for (unsigned k = 0; k < bytes_of(&p, i); k++)
            a->set[place_of(&p, i) + k] = 1;
        if (record_of(&p, i)[XM23_PLACE_KIND] == XM23_PLACE_INSTRUCTION)
            a->pc = (uint16_t)place_of(&p, i);
    }
    free(p.records);
}

uint32_t line_stating(const char *source, size_t length, unsigned at)
{
    struct places p = read_places(source, length);
    size_t line = p.many;
    while (line > 0 && at - place_of(&p, line - 1) >= bytes_of(&p, line - 1))
        line--;
    free(p.records);
    return (uint32_t)line;
}

static void put_hint(const char *source, size_t length, struct fault *f)
{
    struct text t = {0};
    addf(&t, "%s", "");
    add_hint(&t, source, length, f->refusal, f->line);
    snprintf(f->hint, sizeof f->hint, "%s", t.at);
    drop_text(&t);
}

int assemble_source(const char *source, size_t length, struct assembled *a, struct fault *f)
{
    uint64_t reply;
    memset(a->memory, 0, sizeof a->memory);
    reply = assembled(a->memory, source, length);
    if (XM23_REFUSAL(reply)) {
        f->refusal = XM23_REFUSAL(reply);
        f->line = XM23_ASSEMBLE_LINE(reply);
        addf(&f->why, "%s", xm23_refusal_text(f->refusal));
        put_hint(source, length, f);
        return 0;
    }
    find_stated(source, length, a);
    return 1;
}

/* The value as a WORD of the source, above END, whose place stays what it was. */
unsigned source_value(const char *source, size_t length, const char *value, uint16_t *word)
{
    struct text t = {0};
    struct places p;
    size_t end;
    uint64_t reply;
    if (strpbrk(value, ";\r\n"))
        return XM23_REFUSED_SOURCE_FORM;
    p = read_places(source, length);
    end = start_of(source, length, p.many - 1);
    add_bytes(&t, source, end);
    addf(&t, "ORG #0\nWORD %s\nORG #%lu\n", value, (unsigned long)place_of(&p, p.many - 1));
    add_bytes(&t, source + end, length - end);
    reply = assembled(scratch, t.at, t.length);
    *word = (uint16_t)get_word(scratch, 0);
    drop_text(&t);
    free(p.records);
    return XM23_REFUSAL(reply);
}

/* ---- a listing */

/*
 * The bytes of the first lines of a source, of which `memory` is the image, into the first `room` of `shown`: of each
 * line on which no later one of them stands. The number of the last whose bytes are not known, from 1; 0 none.
 */
static size_t take_bytes(const struct places *p, size_t many, const uint8_t *memory, struct shown *shown, size_t room)
{
    static uint32_t owner[XM23_MEMORY_SIZE];
    size_t unknown = 0;
    for (size_t i = 0; i < many; i++)
        for (unsigned k = 0; k < bytes_of(p, i); k++)
            owner[place_of(p, i) + k] = (uint32_t)i;
    for (size_t i = 0; i < many && i < room; i++) {
        unsigned size = bytes_of(p, i), k = 0;
        while (k < size && owner[place_of(p, i) + k] == i)
            k++;
        if (size && k == size && !shown[i].known) {
            memcpy(shown[i].bytes, memory + place_of(p, i), size);
            shown[i].known = 1;
        }
        if (size && !shown[i].known)
            unknown = i + 1;
    }
    return unknown;
}

/* The first lines of a source as they are, and the names of the others with what their records say. */
static void assemble_first(const char *source, size_t length, const struct places *p, size_t many)
{
    struct text t = {0};
    size_t at = start_of(source, length, many);
    add_bytes(&t, source, at);
    for (size_t i = many; i < p->many; at = after_line(source, length, at), i++)
        if (record_of(p, i)[XM23_PLACE_NAMED]) {
            size_t letters;
            const char *name = first_word(source, at, &letters);
            add_bytes(&t, name, letters);
            addf(&t, " EQU #%ld\n", (long)XM23_PLACE_VALUE_OF(record_of(p, i)));
        }
    addf(&t, "END\n");
    assembled(scratch, t.at, t.length);
    drop_text(&t);
}

/* A line with its place and bytes; without them where they are not known. */
static void add_source_line(struct text *t, const struct places *p, size_t i, const struct shown *shown)
{
    if (bytes_of(p, i) && !shown->known)
        addf(t, "%04X  ..  ", (unsigned)place_of(p, i));
    else if (bytes_of(p, i) == 2)
        addf(t, "%04X  %04X", (unsigned)place_of(p, i), get_word(shown->bytes, 0));
    else if (bytes_of(p, i) == 1)
        addf(t, "%04X  %02X  ", (unsigned)place_of(p, i), shown->bytes[0]);
    else
        addf(t, "          ");
    addf(t, " %5lu.  ", (unsigned long)i + 1);
}

/* The bytes of a line, or so many of them and dots. */
static void add_line_text(struct text *t, const char *line, size_t length, size_t width)
{
    add_bytes(t, line, length < width ? length : width);
    addf(t, length < width ? "\n" : " ..\n");
}

void add_source_listing(struct text *t, const char *source, size_t length, const struct assembled *a, size_t most)
{
    struct places p = read_places(source, length);
    size_t room = most && most < p.many ? most : p.many, unknown, at = 0;
    struct shown *shown = (struct shown *)room_for(NULL, room * sizeof *shown);
    memset(shown, 0, room * sizeof *shown);
    unknown = take_bytes(&p, p.many, a->memory, shown, room);
    for (int calls = 0; !most && unknown && calls < MOST_BELOW; calls++) {
        assemble_first(source, length, &p, unknown);
        unknown = take_bytes(&p, unknown, scratch, shown, room);
    }
    for (size_t i = 0; i < room; i++) {
        size_t next = after_line(source, length, at), stop = next - 1;
        if (stop < length && stop > at && source[stop - 1] == '\r')
            stop--;
        add_source_line(t, &p, i, &shown[i]);
        add_line_text(t, source + at, stop - at, most ? PAGE_WIDTH : SIZE_MAX);
        at = next;
    }
    if (room < p.many)
        addf(t, "..\n");
    free(shown);
    free(p.records);
}
