/* One line of a paper: a word that says what it is, an S-record, or an event. */
#include <stdlib.h>
#include <string.h>

#include "desk.h"
#include "machine.h"
#include "paper_award.h"
#include "paper_events.h"

/* The rest of the line without the blanks around it. */
static int take_text(struct rest *r, char **to)
{
    while (r->at < r->end && is_blank(*r->at))
        r->at++;
    while (r->end > r->at && is_blank(r->end[-1]))
        r->end--;
    free(*to);
    *to = (char *)room_for(NULL, (size_t)(r->end - r->at) + 1);
    memcpy(*to, r->at, (size_t)(r->end - r->at));
    (*to)[r->end - r->at] = 0;
    return 1;
}

static int title(struct rest *r)
{
    if (memchr(r->at, 0, (size_t)(r->end - r->at))) {
        say_at(r->paper->name, r->line, "the title has a zero byte");
        return 0;
    }
    return claim_line(r, &r->paper->title_line, "the title") && take_text(r, &r->paper->title);
}

static int expect(struct rest *r)
{
    return claim_line(r, &r->paper->expected_line, "the expected line") &&
           take_expected(r->paper, r->line, r->at, r->end);
}

static int steps(struct rest *r)
{
    return claim_line(r, &r->paper->steps_line, "steps") &&
           next_number(r, UINT32_MAX, "number of steps", &r->paper->steps) && no_more(r);
}

static int priority(struct rest *r)
{
    return claim_line(r, &r->paper->priority_line, "the priority") &&
           next_number(r, UINT32_MAX, "priority", &r->paper->priority) && no_more(r);
}

/* ---- start */

const struct start_part start_parts[] = {
    {"R0", 0, 0, 2}, {"R1", 1, 2, 2}, {"R2", 2, 4, 2}, {"R3", 3, 6, 2}, {"R4", 4, 8, 2}, {"LR", 5, 10, 2},
    {"SP", 6, 12, 2}, {"PC", 7, 14, 2}, {"PSW", START_PSW, XM23_RECORD_PSW, 2},
    {"CEX", START_CEX, XM23_RECORD_CEX, 2}, {"HALTED", START_HALTED, XM23_RECORD_HALTED, 1},
    {"COUNT", START_COUNT, XM23_RECORD_COUNT, 4}, {"LINES", START_LINES, XM23_RECORD_LINES, 4},
    {"R5", 5, 10, 2}, {"R6", 6, 12, 2}, {"R7", 7, 14, 2}, {NULL, 0, 0, 0},
};

/* NAME=NUMBER, into the record. */
static int start_part(struct rest *r, const struct word *w)
{
    const char *equals = (const char *)memchr(w->at, '=', w->length);
    struct word name = {w->at, equals ? (size_t)(equals - w->at) : 0}, number;
    const struct start_part *part = start_parts;
    uint64_t most;
    int64_t value;
    while (part->name && !is_word(&name, part->name))
        part++;
    if (!part->name)
        return wrong_word(r, w, "is no part of the start: R0= to R7=, LR=, SP=, PC=, PSW=, CEX=, HALTED=, COUNT=, "
                                "LINES=");
    most = ((uint64_t)1 << 8 * part->bytes) - 1;
    number.at = equals + 1;
    number.length = w->length - name.length - 1;
    value = value_of(r, &number, part->part < 8 ? -0x8000 : 0, most);
    if (value == NOT_ONE)
        return no_number(r, &number, w, "has no number that fits");
    if (!claim_line(r, &r->paper->start_line[part->part], part->name))
        return 0;
    for (unsigned byte = 0; byte < part->bytes; byte++)
        r->paper->record[part->at + byte] = (uint8_t)((uint64_t)value >> 8 * byte);
    return 1;
}

static int start(struct rest *r)
{
    struct word w;
    int many = 0;
    while (next_word(r, &w)) {
        if (!start_part(r, &w))
            return 0;
        many++;
    }
    if (!many)
        say_at(r->paper->name, r->line, "start names no register");
    return many;
}

/* ---- memory */

static void lay(const struct rest *r, unsigned at, uint64_t byte)
{
    r->paper->memory[at & 0xFFFF] = (uint8_t)byte;
    r->paper->set[at & 0xFFFF] = DATA;
    r->paper->laid[at & 0xFFFF] = r->line;
}

/* ADDRESS NUMBER .., each of one byte or two: what BYTE and WORD of a source take. */
static int lay_numbers(struct rest *r, unsigned width)
{
    int64_t least = width == 1 ? -0x80 : -0x8000, most = width == 1 ? 0xFF : 0xFFFF, value;
    uint64_t at;
    struct rest before;
    struct word w;
    if (!next_number(r, 0xFFFF, "address", &at))
        return 0;
    do {
        if (!next_value(r, least, (uint64_t)most, width == 1 ? "byte" : "word", &value))
            return 0;
        if (at + width > XM23_MEMORY_SIZE) {
            say_at(r->paper->name, r->line, "passes $FFFF");
            return 0;
        }
        for (unsigned i = 0; i < width; i++)
            lay(r, (unsigned)at++, (uint64_t)value >> 8 * i);
        before = *r;
    } while (next_word(&before, &w));
    return 1;
}

static int bytes(struct rest *r)
{
    return lay_numbers(r, 1);
}

static int words(struct rest *r)
{
    return lay_numbers(r, 2);
}

/* DEVICE STATUS [DATA] */
static int device(struct rest *r)
{
    uint64_t d, status, data = 0;
    struct rest before;
    struct word w;
    if (!next_number(r, 7, "device", &d) || !claim_line(r, &r->paper->device_line[d], "this device") ||
        !next_number(r, 0xFF, "status byte", &status))
        return 0;
    before = *r;
    if (next_word(&before, &w) && !next_number(r, 0xFF, "data byte", &data))
        return 0;
    lay(r, 2 * (unsigned)d, status);
    lay(r, 2 * (unsigned)d + 1, data);
    return no_more(r);
}

/* VECTOR PSW PC */
static int vector(struct rest *r)
{
    uint64_t v, psw, pc;
    if (!next_number(r, 15, "vector", &v) || !claim_line(r, &r->paper->vector_line[v], "this vector") ||
        !next_number(r, 0xFFFF, "PSW", &psw) || !next_number(r, 0xFFFF, "PC", &pc))
        return 0;
    for (unsigned i = 0; i < 2; i++) {
        lay(r, XM23_VECTORS + 4 * (unsigned)v + i, psw >> 8 * i);
        lay(r, XM23_VECTORS + 4 * (unsigned)v + 2 + i, pc >> 8 * i);
    }
    return no_more(r);
}

/* DEVICE BYTES */
static int use(struct rest *r)
{
    uint64_t d, many;
    if (!next_number(r, 7, "device", &d) || !claim_line(r, &r->paper->use_line[d], "the use of this device") ||
        !next_number(r, 0xFFFF, "number of stack bytes", &many))
        return 0;
    put_word(r->paper->uses, 2 * (unsigned)d, (unsigned)many);
    r->paper->devices |= (uint8_t)(1 << d);
    return no_more(r);
}

/* A line of S-records as it is; the library judges it later. */
static int srec(struct paper *p, uint32_t line, const char *at, const char *end)
{
    add_bytes(&p->srec, at, (size_t)(end - at));
    addf(&p->srec, "\n");
    if ((p->many_srec & (p->many_srec - 1)) == 0)
        p->srec_lines = (uint32_t *)room_for(p->srec_lines, (2 * p->many_srec + 1) * sizeof *p->srec_lines);
    p->srec_lines[p->many_srec++] = line;
    return 1;
}

/* Its line was taken before all others. */
static int brought(struct rest *r)
{
    return r->paper->many_sources > 0;
}

static const struct {
    const char *name;
    int (*take)(struct rest *r);
} statements[] = {
    {"title", title}, {"steps", steps}, {"start", start}, {"device", device}, {"vector", vector}, {"bytes", bytes},
    {"words", words}, {"source", brought}, {"use", use}, {"priority", priority}, {"every", take_every},
    {"type", take_type}, {"award", take_award}, {"pass", take_pass}, {"expect", expect},
};

/* A # with no digit, or with what is no number of any base. */
static int like_comment(const struct word *w)
{
    for (size_t i = 1; w->at[0] == '#' && i < w->length; i++)
        if (!memchr("0123456789abcdefABCDEF-", w->at[i], 23))
            return 1;
    return w->at[0] == '#' && w->length == 1;
}

static int take_line(struct paper *p, uint32_t line, const char *at, const char *end)
{
    struct rest r = {p, line, at, end}, whole = r;
    struct word w;
    if (end - at >= 2 && at[0] == 'S' && at[1] >= '0' && at[1] <= '9')
        return srec(p, line, at, end);
    if (!next_word(&r, &w))
        return 1;
    if (line == 1 && has_order_mark(w.at, w.length))
        return wrong_word(&r, &w, "begins with a byte order mark: save the paper as UTF-8 without one");
    if (like_comment(&w))
        return wrong_word(&r, &w, "is no number: a comment begins with ;");
    if (memchr("0123456789#$", w.at[0], 12))
        return take_event(&whole);
    for (size_t i = 0; i < sizeof statements / sizeof *statements; i++)
        if (is_word(&w, statements[i].name))
            return statements[i].take(&r);
    return wrong_word(&r, &w, "begins no line of a paper: title, steps, start, device, vector, bytes, words, source, "
                              "use, priority, every, type, award, pass, expect, an S-record, or an event (step device "
                              "byte)");
}

int paper_line(struct paper *p, uint32_t line, const char *at, const char *end)
{
    return take_line(p, line, at, end) ? DONE : REFUSED;
}
