/* The lines of a paper that give points: `award POINTS CRITERION` and `pass POINTS`, read into plain values. */
#include <stdio.h>
#include <stdlib.h>
#include <string.h>

#include "paper_award.h"

/* ---- what points are given for */

#define BIT(relation) (1u << (relation))
#define EITHER (BIT(IS) | BIT(IS_NOT))
#define ORDERED (EITHER | BIT(AT_MOST) | BIT(AT_LEAST))

/* What may be wanted: a number from `least` to `most`, bytes, a text, or nothing but that it is so. */
enum wish { A_NUMBER, SOME_BYTES, A_TEXT, NO_VALUE };

struct form {
    const char *name; /* NULL behind the last */
    enum subject subject;
    unsigned number, relations;
    enum wish wish;
    int32_t least;
    uint32_t most;
};

static const struct form forms[] = {
    {"R0", OF_REGISTER, 0, ORDERED, A_NUMBER, -0x8000, 0xFFFF},
    {"R1", OF_REGISTER, 1, ORDERED, A_NUMBER, -0x8000, 0xFFFF},
    {"R2", OF_REGISTER, 2, ORDERED, A_NUMBER, -0x8000, 0xFFFF},
    {"R3", OF_REGISTER, 3, ORDERED, A_NUMBER, -0x8000, 0xFFFF},
    {"R4", OF_REGISTER, 4, ORDERED, A_NUMBER, -0x8000, 0xFFFF},
    {"R5", OF_REGISTER, 5, ORDERED, A_NUMBER, -0x8000, 0xFFFF},
    {"R6", OF_REGISTER, 6, ORDERED, A_NUMBER, -0x8000, 0xFFFF},
    {"R7", OF_REGISTER, 7, ORDERED, A_NUMBER, -0x8000, 0xFFFF},
    {"LR", OF_REGISTER, 5, ORDERED, A_NUMBER, -0x8000, 0xFFFF},
    {"SP", OF_REGISTER, 6, ORDERED, A_NUMBER, -0x8000, 0xFFFF},
    {"PC", OF_REGISTER, 7, ORDERED, A_NUMBER, -0x8000, 0xFFFF},
    {"PSW", OF_PSW, 0, EITHER, A_NUMBER, 0, 0xFFFF},
    {"CEX", OF_CEX, 0, EITHER, A_NUMBER, 0, 0x7F},
    {"byte", OF_BYTE, 0, ORDERED, A_NUMBER, -0x80, 0xFF},
    {"word", OF_WORD, 0, ORDERED, A_NUMBER, -0x8000, 0xFFFF},
    {"bytes", OF_BYTES, 0, EITHER, SOME_BYTES, -0x80, 0xFF},
    {"screen", OF_SCREEN, 0, EITHER | BIT(HAS), A_TEXT, 0, 0},
    {"reason", OF_REASON, 0, EITHER, A_NUMBER, 0, 1},
    {"depth", OF_DEPTH, 0, ORDERED, A_NUMBER, 0, UINT32_MAX},
    {"sound", OF_SOUND, 0, 0, NO_VALUE, 0, 0},
    {"undisturbed", OF_UNDISTURBED, 0, 0, NO_VALUE, 0, 0},
    {NULL, OF_REGISTER, 0, 0, NO_VALUE, 0, 0},
};

/* The next word as what is looked at. Written as the parts of the start are, without blanks, it is a mistake. */
static const struct form *next_form(struct rest *r)
{
    const struct form *f = forms;
    struct word w;
    size_t many = 0;
    if (!next_word(r, &w)) {
        say_at(r->paper->name, r->line, "what the points are given for is missing");
        return NULL;
    }
    while (f->name && !is_word(&w, f->name))
        f++;
    if (f->name)
        return f;
    while (many < w.length && !memchr("=<>!", w.at[many], 4))
        many++;
    if (many && many < w.length)
        wrong_word(r, &w, "has no blanks around its relation: R0 = $001F");
    else
        wrong_word(r, &w, "is nothing that points are given for: R0 to R7, LR, SP, PC, PSW, CEX, byte, word, bytes, "
                          "screen, reason, depth, sound, undisturbed");
    return NULL;
}

/* ---- relations */

static const char *const relations[RELATIONS] = {"=", "!=", "<=", ">=", "has"};

const char *relation_word(enum relation relation)
{
    return relations[relation];
}

/* Tells a word that is no relation of this form, and those that are. */
static int no_relation(const struct rest *r, const struct word *w, const struct form *f)
{
    char says[96];
    int length = snprintf(says, sizeof says, "is no relation of %s:", f->name), many = 0;
    for (unsigned i = 0; i < RELATIONS; i++)
        if (f->relations & BIT(i))
            length += snprintf(says + length, sizeof says - (size_t)length, "%s %s", many++ ? "," : "", relations[i]);
    return wrong_word(r, w, says);
}

static int next_relation(struct rest *r, const struct form *f, enum relation *relation)
{
    struct word w;
    if (!next_word(r, &w)) {
        say_at(r->paper->name, r->line, "the relation is missing");
        return 0;
    }
    for (unsigned i = 0; i < RELATIONS; i++)
        if (f->relations & BIT(i) && is_word(&w, relations[i])) {
            *relation = (enum relation)i;
            return 1;
        }
    return no_relation(r, &w, f);
}

/* ---- what is wanted */

/* What is compared in order is a number from 0 on: a register holds no sign. */
static int want_number(struct rest *r, const struct form *f, struct award *a)
{
    int ordered = a->relation == AT_MOST || a->relation == AT_LEAST;
    char what[32];
    int64_t value;
    snprintf(what, sizeof what, "value of %s", f->name);
    if (!next_value(r, ordered ? 0 : f->least, f->most, what, &value))
        return 0;
    a->wanted.number = f->least < 0 ? (uint32_t)value & f->most : (uint32_t)value;
    return 1;
}

static int too_long(const struct rest *r)
{
    say_at(r->paper->name, r->line, "an award has at most %d bytes", MOST_WANTED);
    return 0;
}

/* Bytes up to the line's end, at least one. */
static int want_bytes(struct rest *r, const struct form *f, struct award *a)
{
    uint8_t *bytes = (uint8_t *)room_for(NULL, MOST_WANTED);
    struct rest before;
    struct word w;
    int64_t value;
    a->wanted.bytes = bytes;
    do {
        if (a->wanted.length == MOST_WANTED)
            return too_long(r);
        if (!next_value(r, f->least, f->most, "byte", &value))
            return 0;
        bytes[a->wanted.length++] = (uint8_t)value;
        before = *r;
    } while (next_word(&before, &w));
    if (a->at + a->wanted.length > XM23_MEMORY_SIZE)
        say_at(r->paper->name, r->line, "passes $FFFF");
    return a->at + a->wanted.length <= XM23_MEMORY_SIZE;
}

static int want_text(struct rest *r, struct award *a)
{
    struct text t = {0};
    int good = next_text(r, MOST_WANTED, &t);
    a->wanted.bytes = (uint8_t *)t.at;
    a->wanted.length = t.length;
    if (good && !t.length && a->relation == HAS) {
        say_at(r->paper->name, r->line, "the text is empty: every screen has it");
        good = 0;
    }
    return good;
}

static int next_wanted(struct rest *r, const struct form *f, struct award *a)
{
    a->wanted.number = 1;
    if (f->wish == NO_VALUE)
        return 1;
    if (!next_relation(r, f, &a->relation))
        return 0;
    a->wanted.number = 0;
    return f->wish == A_NUMBER ? want_number(r, f, a) : f->wish == A_TEXT ? want_text(r, a) : want_bytes(r, f, a);
}

/* ---- the lines */

/* The address or the device that it is about. */
static int next_place(struct rest *r, const struct form *f, struct award *a)
{
    uint64_t number = f->number;
    int memory = f->subject == OF_BYTE || f->subject == OF_WORD || f->subject == OF_BYTES;
    if (memory && !next_number(r, 0xFFFF, "address", &number))
        return 0;
    if (f->subject == OF_SCREEN && !next_number(r, 7, "device", &number))
        return 0;
    if (f->subject == OF_WORD && number & 1) {
        say_at(r->paper->name, r->line, "$%04X is no address of a word: it is odd", (unsigned)number);
        return 0;
    }
    a->at = memory ? (unsigned)number : 0;
    a->number = memory ? 0 : (unsigned)number;
    return 1;
}

static int same_award(const struct award *a, const struct award *b)
{
    return a->subject == b->subject && a->number == b->number && a->at == b->at && a->relation == b->relation &&
           holds(IS, &a->wanted, &b->wanted);
}

/* What is wanted twice is told: a column of the results is named by it. */
static int is_new(const struct rest *r, const struct award *a)
{
    const struct awards *all = &r->paper->awards;
    for (size_t i = 0; i < all->many; i++)
        if (same_award(&all->list[i], a)) {
            say_at(r->paper->name, r->line, "this award is on line %lu already", (unsigned long)all->list[i].line);
            return 0;
        }
    return 1;
}

static int take_criterion(struct rest *r, struct award *a)
{
    const struct form *f = next_form(r);
    if (!f)
        return 0;
    a->subject = f->subject;
    return next_place(r, f, a) && next_wanted(r, f, a) && no_more(r) && is_new(r, a);
}

int take_award(struct rest *r)
{
    struct awards *all = &r->paper->awards;
    struct award a = {OF_REGISTER, 0, 0, IS, {0, NULL, 0}, 0, r->line};
    int64_t points;
    if (all->many == MOST_AWARDS) {
        say_at(r->paper->name, r->line, "a paper has %d awards at most", MOST_AWARDS);
        return 0;
    }
    if (!next_value(r, 1, MOST_POINTS, "number of points", &points))
        return 0;
    a.points = (unsigned)points;
    if (!take_criterion(r, &a)) {
        free((void *)a.wanted.bytes);
        return 0;
    }
    all->list[all->many++] = a;
    return 1;
}

int take_pass(struct rest *r)
{
    struct awards *all = &r->paper->awards;
    int64_t points;
    if (!claim_line(r, &all->pass_line, "pass") ||
        !next_value(r, 1, MOST_AWARDS * MOST_POINTS, "number of points", &points))
        return 0;
    all->pass = (uint32_t)points;
    return no_more(r);
}

int judge_pass(const struct paper *p)
{
    const struct awards *all = &p->awards;
    if (!all->pass_line || all->pass <= most_of(all))
        return 1;
    say_at(p->name, all->pass_line, "nobody can pass: all awards together give %lu point%s",
           (unsigned long)most_of(all), most_of(all) == 1 ? "" : "s");
    return 0;
}

void drop_awards(struct paper *p)
{
    for (size_t i = 0; i < p->awards.many; i++)
        free((void *)p->awards.list[i].wanted.bytes);
}
