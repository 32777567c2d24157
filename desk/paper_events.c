/* The events of a paper: one by one, by a period, by a text; and the list that they make together. */
#include <stdlib.h>
#include <string.h>

#include "machine.h"
#include "paper_events.h"

/* ---- lines */

/* One event more. Of those that are too many for any list the first is kept, and its line. */
static void add_event(struct paper *p, struct event **list, size_t *many, struct event e)
{
    size_t all = p->many_events + p->many_made;
    if (all > XM23_MAX_EVENTS)
        return;
    if (all == XM23_MAX_EVENTS)
        p->full_line = e.line;
    if ((*many & (*many - 1)) == 0)
        *list = (struct event *)room_for(*list, (2 * *many + 1) * sizeof **list);
    (*list)[(*many)++] = e;
}

static void make_event(struct rest *r, uint64_t step, uint64_t device, unsigned byte)
{
    struct event e = {r->line, (uint32_t)step, (unsigned)device, byte};
    add_event(r->paper, &r->paper->made, &r->paper->many_made, e);
}

int take_event(struct rest *r)
{
    uint64_t step, device, byte;
    struct event e;
    if (!next_number(r, UINT32_MAX, "step", &step) || !next_number(r, 0xFF, "device", &device) ||
        !next_number(r, 0xFF, "byte", &byte) || !no_more(r))
        return 0;
    e.line = r->line;
    e.step = (uint32_t)step;
    e.device = (unsigned)device;
    e.byte = (unsigned)byte;
    add_event(r->paper, &r->paper->events, &r->paper->many_events, e);
    return 1;
}

int take_every(struct rest *r)
{
    uint64_t from, to, device, byte;
    int64_t period;
    if (!next_value(r, 1, UINT32_MAX, "period", &period) || !next_keyword(r, "from") ||
        !next_number(r, UINT32_MAX, "step", &from) || !next_keyword(r, "to") ||
        !next_number(r, UINT32_MAX, "step", &to) || !next_number(r, 0xFF, "device", &device) ||
        !next_number(r, 0xFF, "byte", &byte) || !no_more(r))
        return 0;
    if (to < from) {
        say_at(r->paper->name, r->line, "step %lu is before step %lu", (unsigned long)to, (unsigned long)from);
        return 0;
    }
    for (uint64_t step = from; step <= to && !r->paper->full_line; step += (uint64_t)period)
        make_event(r, step, device, (unsigned)byte);
    return 1;
}

/* A byte of the text at each of so many steps. */
static int type_text(struct rest *r, uint64_t step, uint64_t period, uint64_t device, const struct text *t)
{
    if (!t->length) {
        say_at(r->paper->name, r->line, "the text is empty: it types nothing");
        return 0;
    }
    if (step + period * (t->length - 1) > UINT32_MAX) {
        say_at(r->paper->name, r->line, "the text passes step %lu", (unsigned long)UINT32_MAX);
        return 0;
    }
    for (size_t i = 0; i < t->length; i++)
        make_event(r, step + period * i, device, (unsigned char)t->at[i]);
    return 1;
}

int take_type(struct rest *r)
{
    uint64_t step, device;
    int64_t period;
    struct text t = {0};
    int good = next_number(r, UINT32_MAX, "step", &step) && next_keyword(r, "every") &&
               next_value(r, 1, UINT32_MAX, "period", &period) && next_number(r, 0xFF, "device", &device) &&
               next_text(r, MOST_TEXT, &t) && no_more(r) && type_text(r, step, (uint64_t)period, device, &t);
    drop_text(&t);
    return good;
}

/* ---- the list */

/* No two events that lines make share step and line, and those of event lines are in order already. */
static int by_step(const void *a, const void *b)
{
    const struct event *x = (const struct event *)a, *y = (const struct event *)b;
    if (x->step != y->step)
        return x->step < y->step ? -1 : 1;
    return (x->line > y->line) - (x->line < y->line);
}

void merge_events(struct paper *p)
{
    if (!p->many_made)
        return;
    p->events = (struct event *)room_for(p->events, (p->many_events + p->many_made) * sizeof *p->events);
    memcpy(p->events + p->many_events, p->made, p->many_made * sizeof *p->made);
    p->many_events += p->many_made;
    p->many_made = 0;
    qsort(p->events, p->many_events, sizeof *p->events, by_step);
}

void pack_events(struct paper *p)
{
    p->event_bytes = (uint8_t *)room_for(p->event_bytes, XM23_EVENT_SIZE * p->many_events);
    memset(p->event_bytes, 0, XM23_EVENT_SIZE * p->many_events);
    for (size_t i = 0; i < p->many_events; i++) {
        uint8_t *at = p->event_bytes + XM23_EVENT_SIZE * i;
        put_word(at, XM23_EVENT_STEP, p->events[i].step & 0xFFFF);
        put_word(at, XM23_EVENT_STEP + 2, p->events[i].step >> 16);
        at[XM23_EVENT_DEVICE] = (uint8_t)p->events[i].device;
        at[XM23_EVENT_DATA] = (uint8_t)p->events[i].byte;
    }
}
