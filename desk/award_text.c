/* Awards in words: what is wanted, what is found, the lines of a paper. */
#include <string.h>

#include "awarded.h"

#define MOST_FOUND 200 /* bytes of what a screen showed */

/* ---- the criterion */

void add_subject(struct text *t, const struct award *a)
{
    static const char *const registers[] = {"R0", "R1", "R2", "R3", "R4", "LR", "SP", "PC"};
    switch (a->subject) {
    case OF_REGISTER: addf(t, "%s", registers[a->number & 7]); break;
    case OF_PSW: addf(t, "PSW"); break;
    case OF_CEX: addf(t, "CEX"); break;
    case OF_BYTE: addf(t, "byte $%04X", a->at); break;
    case OF_WORD: addf(t, "word $%04X", a->at); break;
    case OF_BYTES: addf(t, "bytes $%04X", a->at); break;
    case OF_SCREEN: addf(t, "screen %u", a->number); break;
    case OF_REASON: addf(t, "reason"); break;
    case OF_DEPTH: addf(t, "depth"); break;
    case OF_SOUND: addf(t, "sound"); break;
    default: addf(t, "undisturbed");
    }
}

/* A number in the form that its subject has, or bytes of memory; a text is added by who knows what it is for. */
static void add_value(struct text *t, const struct award *a, const struct value *v)
{
    for (size_t i = 0; a->subject == OF_BYTES && i < v->length; i++)
        add_byte(t, i ? " $" : "$", v->bytes[i]);
    if (v->bytes)
        return;
    if (a->subject == OF_REASON || a->subject == OF_DEPTH)
        addf(t, "%lu", (unsigned long)v->number);
    else
        addf(t, "$%0*lX", a->subject == OF_BYTE || a->subject == OF_CEX ? 2 : 4, (unsigned long)v->number);
}

static int wants_nothing(const struct award *a)
{
    return a->subject == OF_SOUND || a->subject == OF_UNDISTURBED;
}

void add_wanted(struct text *t, const struct award *a)
{
    if (wants_nothing(a))
        return;
    addf(t, "%s ", relation_word(a->relation));
    if (a->subject == OF_SCREEN) {
        addf(t, "\"");
        add_bytes(t, a->wanted.bytes, a->wanted.length);
        addf(t, "\"");
    }
    add_value(t, a, &a->wanted);
}

void add_criterion(struct text *t, const struct award *a)
{
    add_subject(t, a);
    addf(t, "%s", wants_nothing(a) ? "" : " ");
    add_wanted(t, a);
}

/* ---- what is found */

/* Of a long screen the first bytes, and how many there were. */
static void add_shown_text(struct text *t, const struct value *v)
{
    size_t length = v->length < MOST_FOUND ? v->length : MOST_FOUND;
    addf(t, "\"");
    add_bytes(t, v->bytes, length);
    addf(t, "\"");
    if (length < v->length)
        addf(t, " .. (%lu bytes)", (unsigned long)v->length);
}

void add_found(struct text *t, const struct award *a, const struct closing *c, const struct verdict *v)
{
    struct value found = value_found(a, c);
    if (wants_nothing(a) && v->reason == XM23_REASON_DEEP)
        addf(t, "judged for its first %lu steps alone", (unsigned long)v->steps);
    else if (a->subject == OF_SOUND)
        add_handlers(t, v);
    else if (a->subject == OF_UNDISTURBED)
        add_application(t, v);
    else if (a->subject == OF_SCREEN)
        add_shown_text(t, &found);
    else
        add_value(t, a, &found);
}

/* ---- the lines of a paper */

/* A text in quotes: what is not shown, a backslash and a quote are \xHH. */
static void add_quoted(struct text *t, const struct value *v)
{
    const char *at = (const char *)v->bytes, *end = at + v->length;
    addf(t, "\"");
    while (at < end) {
        const char *quote = (const char *)memchr(at, '"', (size_t)(end - at)), *stop = quote ? quote : end;
        add_plain(t, at, (size_t)(stop - at));
        if (quote)
            add_byte(t, "\\x", '"');
        at = stop + (quote != NULL);
    }
    addf(t, "\"");
}

static void add_award_line(struct text *t, const struct award *a)
{
    addf(t, "award    %u ", a->points);
    if (a->subject == OF_SCREEN) {
        add_subject(t, a);
        addf(t, " %s ", relation_word(a->relation));
        add_quoted(t, &a->wanted);
    } else {
        add_criterion(t, a);
    }
    addf(t, "\n");
}

void add_award_lines(struct text *t, const struct awards *a)
{
    for (size_t i = 0; i < a->many; i++)
        add_award_line(t, &a->list[i]);
    if (a->pass_line)
        addf(t, "pass     %lu\n", (unsigned long)a->pass);
}

/* ---- what a run is awarded */

void add_total(struct text *t, const struct awards *a, uint64_t met)
{
    int passed = passes(a, met);
    addf(t, "%lu of %lu point%s", (unsigned long)total_of(a, met), (unsigned long)most_of(a),
        most_of(a) == 1 ? "" : "s");
    if (passed >= 0)
        addf(t, ", %lu to pass: %s", (unsigned long)a->pass, passed ? "passed" : "not passed");
}

int points_enough(const struct paper *p, uint64_t met)
{
    struct text t = {0};
    int enough = passes(&p->awards, met) != 0;
    add_total(&t, &p->awards, met);
    if (!enough)
        say_at(p->name, p->awards.pass_line, "%s", t.at);
    drop_text(&t);
    return enough;
}

static void add_one(struct text *t, const struct awards *a, size_t i, const struct awarded *w)
{
    struct closing c = closing_of(&w->after, &w->o, w->verdict);
    struct text words = {0};
    add_criterion(&words, &a->list[i]);
    if (!(w->met >> i & 1)) {
        addf(&words, ": ");
        add_found(&words, &a->list[i], &c, w->verdict);
    }
    addf(t, "  %4lu of %-4u  ", (unsigned long)points_of(a, i, w->met), a->list[i].points);
    add_plain(t, words.at, words.length);
    addf(t, "\n");
    drop_text(&words);
}

void add_awarded(struct text *t, const struct awards *a, const struct awarded *w)
{
    for (size_t i = 0; i < a->many; i++)
        add_one(t, a, i, w);
    addf(t, "  ");
    add_total(t, a, w->met);
    addf(t, "\n");
}
