/*
 * Hints for values and addresses (19): which limit is passed. The library is asked, by the source with the line at
 * fault replaced, and for the values that a statement takes by sources of that statement alone.
 */
#include <stdio.h>
#include <string.h>

#include "hint_ask.h"
#include "xm23.h"

enum { PROBE_PLACE = 32768, FEW = 64 };

/* A statement of which one operand is asked for. */
struct asked {
    char before[MOST_LINE + 1], after[MOST_LINE + 1];
    int named; /* the operand has a name in it */
};

/* Whether the statement takes a value at the place, as a number, or by a name where the line has one. */
static int takes(const struct asked *a, long value)
{
    static uint8_t memory[XM23_MEMORY_SIZE];
    struct text t = {0};
    uint64_t reply;
    addf(&t, HINT_NAME " EQU #%ld\nORG #%d\n%s", value, PROBE_PLACE, a->before);
    addf(&t, a->named ? HINT_NAME : "#%ld", value);
    addf(&t, "%s\nEND\n", a->after);
    reply = xm23_assemble(memory, sizeof memory, (const uint8_t *)t.at, t.length);
    drop_text(&t);
    return XM23_REFUSAL(reply) == XM23_ACCEPTED;
}

/* The last value that is taken from one on, by steps in a direction. */
static long last_taken(const struct asked *a, long from, long step)
{
    long far = step;
    while (takes(a, from + far) && far < 0x1000000 && far > -0x1000000)
        far *= 2;
    for (long part = far / 2; part != 0 && part / step >= 1; part /= 2)
        if (takes(a, from + part))
            from += part;
    return from;
}

/* Whether few values are taken, with gaps between them; they are told. */
static int few_values(struct text *t, const struct asked *a)
{
    long first = FEW, last = -FEW, many = 0;
    for (long value = -FEW; value <= FEW; value++)
        if (takes(a, value)) {
            first = many++ ? first : value;
            last = value;
        }
    if (!many || last - first + 1 == many || takes(a, FEW + 1))
        return 0;
    for (long value = first, told = 0; value <= last; value++)
        if (takes(a, value))
            addf(t, "%s%ld", told++ ? ", " : "one of ", value);
    return 1;
}

/* The values that are taken: from 0 both ways, or from the address behind the statement. */
static void add_taken(struct text *t, const struct asked *a)
{
    long next = PROBE_PLACE + 2, step;
    if (takes(a, 0)) {
        if (!few_values(t, a))
            addf(t, "%ld to %ld", last_taken(a, 0, -1), last_taken(a, 0, 1));
        return;
    }
    step = takes(a, next + 1) ? 1 : 2;
    addf(t, "%s address from %ld before to %ld behind the next statement's", step == 2 ? "an even" : "an",
        next - last_taken(a, next, -step), last_taken(a, next, step) - next);
}

/* Whether an operand is a value, as it stands. */
static int is_value(const char *line, const struct span *o)
{
    char tried[MOST_LINE + 1];
    return !is_register(line, o) && put_part(tried, line, o, "#0") && line_fits(tried);
}

/* Whether a name stands in an operand. */
static int has_name(const char *line, const struct span *o)
{
    struct span w = {o->at, 0};
    while (next_run(line, w.at + w.length, &w) && w.at < o->at + o->length)
        if (!is_marked(line, &w) && is_name(line, &w))
            return 1;
    return 0;
}

/* The statement around an operand, other values being 0. */
static int ask_of(struct asked *a, const char *line, const struct parts *p, unsigned which)
{
    struct text t = {0};
    size_t at = p->word.at;
    memset(a, 0, sizeof *a);
    for (unsigned i = 0; i < p->many; i++) {
        const struct span *o = &p->operands[i];
        add_bytes(&t, line + at, o->at - at);
        at = o->at + o->length;
        if (i == which) {
            snprintf(a->before, sizeof a->before, "%s", t.at);
            t.length = 0;
            add_bytes(&t, "", 0);
        } else if (is_value(line, o)) {
            addf(&t, "#0");
        } else {
            add_bytes(&t, line + o->at, o->length);
        }
    }
    addf(&t, "%s", line + at);
    snprintf(a->after, sizeof a->after, "%s", t.at);
    drop_text(&t);
    a->named = has_name(line, &p->operands[which]);
    return strlen(a->before) + strlen(a->after) < MOST_LINE;
}

/* The operand whose value does not fit: the one without which nothing is wrong, or the first value. */
static int wrong_operand(const char *source, size_t length, uint32_t number, const char *line, const struct parts *p,
                         unsigned *which)
{
    char tried[MOST_LINE + 1];
    unsigned many = 0;
    for (unsigned i = p->many; i-- > 0;)
        if (is_value(line, &p->operands[i])) {
            many++;
            *which = i;
        }
    for (unsigned i = 0; many > 1 && i < p->many; i++)
        if (is_value(line, &p->operands[i]) && put_part(tried, line, &p->operands[i], "#0") &&
            !at_fault_with(source, length, number, tried, XM23_REFUSED_SOURCE_VALUE)) {
            *which = i;
            break;
        }
    return many != 0;
}

static void add_range(struct text *t, const char *line, const struct parts *p, unsigned which)
{
    struct asked a;
    if (!ask_of(&a, line, p, which))
        return;
    add_column(t, p->operands[which].at);
    addf(t, "%.*s takes ", (int)p->word.length, line + p->word.at);
    add_taken(t, &a);
}

static void add_leaves(struct text *t, const char *line, const struct span *o)
{
    add_column(t, o->at);
    addf(t, "the value leaves 32 bits%s", memchr(line + o->at, '/', o->length) ? " or is divided by zero" : "");
}

/* ---- by the statement */

/* A line for the one at fault: its label, and a statement. */
static void instead(char *to, const char *line, const struct parts *p, const char *statement)
{
    snprintf(to, 2 * MOST_LINE, "%.*s %s", (int)p->label.length, line + p->label.at, statement);
}

/* ORG, EQU and BSS, whose values stand on lines above. */
static void hint_layout(struct text *t, const char *source, size_t length, uint32_t number, const char *line,
                        const struct parts *p)
{
    char tried[2 * MOST_LINE];
    const struct span *o = &p->operands[0];
    snprintf(tried, sizeof tried, HINT_NAME " EQU %.*s", (int)o->length, line + o->at);
    if (at_fault_with(source, length, number, tried, XM23_REFUSED_SOURCE_VALUE)) {
        add_leaves(t, line, o);
        return;
    }
    snprintf(tried, sizeof tried, "ORG %.*s", (int)o->length, line + o->at);
    add_column(t, o->at);
    if (at_fault_with(source, length, number, tried, XM23_REFUSED_SOURCE_VALUE))
        addf(t, "%.*s takes 0 and more", (int)p->word.length, line + p->word.at);
    else
        addf(t, "this passes the last byte, $FFFF");
}

/* What states bytes: past the last one, on an odd address, or a value that does not fit. */
static void hint_bytes(struct text *t, const char *source, size_t length, uint32_t number, const char *line,
                       const struct parts *p)
{
    char room[2 * MOST_LINE], tried[2 * MOST_LINE], value[MOST_LINE + 1];
    unsigned which = 0;
    int byte = is_run(line, &p->word, "BYTE");
    instead(room, line, p, byte ? "BSS #1" : "BSS #2");
    instead(tried, line, p, "WORD #0");
    if (at_fault_with(source, length, number, room, XM23_REFUSED_SOURCE_VALUE)) {
        add_column(t, p->word.at);
        addf(t, "this passes the last byte, $FFFF");
        return;
    }
    if (!byte && at_fault_with(source, length, number, tried, XM23_REFUSED_SOURCE_VALUE)) {
        add_column(t, p->word.at);
        addf(t, "this stands on an odd address: BSS #1 above it makes it even");
        return;
    }
    if (!wrong_operand(source, length, number, line, p, &which))
        return;
    snprintf(value, sizeof value, "%.*s", (int)p->operands[which].length, line + p->operands[which].at);
    if (leaves_bits(source, length, number, room, value))
        add_leaves(t, line, &p->operands[which]);
    else
        add_range(t, line, p, which);
}

void hint_value(struct text *t, const char *source, size_t length, uint32_t number)
{
    char line[MOST_LINE + 1];
    struct parts p;
    if (!faulty_line(source, length, number, line) ||
        giving_line(source, length, 1, HINT_NAME, strlen(HINT_NAME)))
        return;
    cut_line(line, &p);
    if (is_run(line, &p.word, "ORG") || is_run(line, &p.word, "EQU") || is_run(line, &p.word, "BSS"))
        hint_layout(t, source, length, number, line, &p);
    else
        hint_bytes(t, source, length, number, line, &p);
}
