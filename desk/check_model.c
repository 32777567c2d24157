/* A paper beside a model, the setter's own solution: what its run tells, by the trace, the judge and its awards. */
#include <stdlib.h>
#include <string.h>

#include "awarded.h"
#include "check.h"
#include "held.h"
#include "line.h"
#include "lone.h"

/* ---- events */

static struct fates fates;
static uint8_t unstated[8]; /* devices whose vector nobody states, and no step wrote */

static int is_behind(const struct check *c, size_t i)
{
    return event_of(&fates, c->paper, i) == EVENT_AFTER_END && !is_late(c, i);
}

static int is_ignored(const struct check *c, size_t i)
{
    return event_of(&fates, c->paper, i) == EVENT_ENA_CLEAR;
}

static int is_overrun(const struct check *c, size_t i)
{
    (void)c;
    return fates.each[i].effect & XM23_EFFECT_OVERRUN;
}

static int is_lost(const struct check *c, size_t i)
{
    (void)c;
    return interrupt_of(&fates.each[i]) == EVENT_COUNT_FULL;
}

/* Whether it asks for its handler, which runs or is waited for. */
static int is_asking(size_t i)
{
    return fates.each[i].entry || interrupt_of(&fates.each[i]) == EVENT_WAITS;
}

static int is_misled(const struct check *c, size_t i)
{
    return is_asking(i) && unstated[c->paper->events[i].device];
}

static int is_waiting(const struct check *c, size_t i)
{
    return interrupt_of(&fates.each[i]) == EVENT_WAITS && !is_misled(c, i);
}

static int asks_handler(const struct check *c, unsigned device)
{
    for (size_t i = 0; i < c->paper->many_events; i++)
        if (is_asking(i) && c->paper->events[i].device == device)
            return 1;
    return 0;
}

/* Whether no step of the run wrote a byte of a device's vector. */
static int never_written(const struct check *c, unsigned device)
{
    static struct walk walk;
    static struct machine m;
    for (unsigned i = 0; i < 4; i++) {
        memcpy(&m, &c->before, sizeof m);
        if (last_writer(&walk, c->paper, &m, (uint32_t)c->paper->steps, XM23_VECTORS + 4 * device + i))
            return 0;
    }
    return 1;
}

static void check_events(struct check *c)
{
    static struct machine m;
    memcpy(&m, &c->before, sizeof m);
    begin_fates(&fates, c->paper, &m);
    trace_events(&fates, NULL, c->paper, &m, c->paper->steps);
    for (unsigned d = 0; d < 8; d++)
        unstated[d] = (uint8_t)(asks_handler(c, d) && !has_vector(c, d) && never_written(c, d));
    find_events(c, is_behind, "comes behind the last step of the model, which halts");
    find_events(c, is_ignored, "finds ENA clear in the model's run, and is not taken");
    find_events(c, is_overrun, "is an overrun in the model's run: DBA is set from one before it");
    find_events(c, is_lost, "is lost in the model's run: 15 of its device wait already");
    find_events(c, is_waiting, "still waits when the model's run ends");
    find_events(c, is_misled, "asks for a handler whose vector neither the paper nor the model states");
}

/* ---- bytes of the model that the paper lays over */

static int lies_over(const struct check *c, unsigned at)
{
    return at < XM23_MEMORY_SIZE && c->bytes.set[at] && c->paper->set[at];
}

static void check_bytes(struct check *c)
{
    const struct paper *p = c->paper;
    for (unsigned at = 0, end; at < XM23_MEMORY_SIZE; at = end > at ? end : at + 1) {
        uint32_t line = lies_over(c, at) ? laying_line(p, at) : 0;
        unsigned others = 0;
        for (end = at; lies_over(c, end) && laying_line(p, end) == line; end++)
            others += p->memory[end] != c->bytes.memory[end];
        if (others)
            find(c, p->name, line, "lays $%04X to $%04X over bytes of the model, %u of them with another value", at,
                 end - 1, others);
    }
}

/* ---- names of the model that stand alone and that nothing uses */

static void check_names(struct check *c, const struct handed *h)
{
    struct name *names;
    size_t many = lone_names(h->bytes, h->length, "", &names);
    for (size_t i = 0; i < many; i++) {
        struct text says = {0};
        add_lone(&says, &names[i]);
        find_text(c, h->path, names[i].line, &says);
        drop_text(&says);
    }
    free(names);
}

static void check_sources(struct check *c)
{
    for (unsigned i = 0; i < c->model->many; i++)
        if (is_source(c->model->files[i].name))
            check_names(c, &c->model->files[i]);
}

/* ---- how it closes */

static void check_line(struct check *c, const struct awarded *w)
{
    const struct paper *p = c->paper;
    struct text line = {0};
    add_line(&line, &c->before, p, p->steps);
    addf(&c->said, "the model's line: %s\n", line.at);
    if (w->o.reason == XM23_REASON_HALTED)
        find(c, p->name, p->steps_line, "the model halts after %lu of %lu steps", (unsigned long)w->o.steps,
             (unsigned long)p->steps);
    if (as_expected(p, line.at) == 0)
        find(c, p->name, p->expected_line, "the model closes with another line: %s", line.at);
    drop_text(&line);
}

/* An award that the model does not get, with what is found instead. */
static void find_award(struct check *c, const struct award *a, const struct awarded *w)
{
    struct closing closing = closing_of(&w->after, &w->o, w->verdict);
    struct text says = {0};
    addf(&says, "the model does not get the %u point%s of ", a->points, a->points == 1 ? "" : "s");
    add_criterion(&says, a);
    addf(&says, ": found ");
    add_found(&says, a, &closing, w->verdict);
    find_text(c, c->paper->name, a->line, &says);
    drop_text(&says);
}

static void check_awards(struct check *c, const struct awarded *w)
{
    const struct awards *all = &c->paper->awards;
    for (size_t i = 0; i < all->many; i++)
        if (!(w->met >> i & 1))
            find_award(c, &all->list[i], w);
    if (all->many)
        addf(&c->said, "the model gets %lu of %lu points\n", (unsigned long)total_of(all, w->met),
            (unsigned long)most_of(all));
}

/* What is found of its handlers; what its application could notice of them is lawful. */
static void check_handlers(struct check *c)
{
    struct verdict *v = judge_run(c->paper, &c->before);
    struct text says = {0};
    for (unsigned i = 0; i < v->many; i++)
        if (v->kinds[i] < XM23_FOUND_SLEEP)
            find_text(c, c->model->name, 0, &v->words[v->kinds[i]]);
    if (v->reason == XM23_REASON_DEEP) {
        add_deep(&says, v);
        find_text(c, c->model->name, 0, &says);
    }
    drop_text(&says);
    drop_verdict(v);
}

/* ---- stack bytes */

static void check_uses(struct check *c, const struct held *h)
{
    const struct paper *p = c->paper;
    for (unsigned d = 0; d < 8; d++) {
        unsigned use = get_word(p->uses, 2 * d), has = p->devices >> d & 1;
        if (!h->entered[d])
            continue;
        addf(&c->said, "device %u: its handler held %lu stack bytes beside its frame", d, (unsigned long)h->most[d]);
        if (has)
            addf(&c->said, ", use says %u", use);
        addf(&c->said, "\n");
        if (has && h->most[d] > use)
            find(c, p->name, p->use_line[d], "the model's handler of device %u held %lu stack bytes, more than %u", d,
                 (unsigned long)h->most[d], use);
        if (!has && p->devices)
            find(c, p->name, 0, "has no line 'use' for device %u, whose handler runs: 'stack' leaves it out", d);
    }
}

static void check_depth(struct check *c)
{
    const struct need *n = &c->need;
    int figure = c->paper->devices && !n->refusal && n->without == 8;
    struct held h;
    find_held(&h, c->paper, &c->before);
    check_uses(c, &h);
    if (!h.any)
        return;
    addf(&c->said, "handlers went down to SP $%04X, %lu bytes below the application's", h.lowest,
        (unsigned long)h.below);
    if (figure)
        addf(&c->said, "; stack says %lu", (unsigned long)n->bytes);
    addf(&c->said, "\n");
    if (figure && h.below > n->bytes)
        find(c, c->paper->name, 0, "the model's handlers held %lu stack bytes together, more than the %lu of 'stack'",
             (unsigned long)h.below, (unsigned long)n->bytes);
}

void check_model(struct check *c)
{
    static struct awarded w;
    award_run(c->paper, &c->before, &w);
    check_events(c);
    check_bytes(c);
    check_sources(c);
    check_line(c, &w);
    check_awards(c, &w);
    check_handlers(c);
    check_depth(c);
    drop_awarded(&w);
}
