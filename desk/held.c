/*
 * How far down the stack the handlers of a run went. Of each step the trace tells SP before it, and whether it enters
 * a handler or returns; so the step behind an entry has SP as the entry left it.
 */
#include <stdlib.h>
#include <string.h>

#include "held.h"

enum { NO_DEVICE = 8, MOST_RECORDS = 9216 };

/* A handler that is open: its device, SP as its entry left it, once the next step tells that; whether it is the
 * application's own, of SVC with no other one open. */
struct opened {
    uint8_t device, settled, own;
    uint16_t sp;
};

/* Those that are open, the oldest first: room for them is kept from one run to the next. */
static struct opened *open_ones;
static size_t many_open, others; /* others: those that are not the application's own */
static unsigned outer;           /* SP before the outermost of the others was entered */

static void enter(unsigned device, int own, unsigned sp)
{
    static size_t room;
    struct opened *o;
    if (many_open == room) {
        room = 2 * room + 64;
        open_ones = (struct opened *)room_for(open_ones, room * sizeof *open_ones);
    }
    o = &open_ones[many_open++];
    memset(o, 0, sizeof *o);
    o->device = (uint8_t)device;
    o->own = (uint8_t)own;
    if (!own && !others++)
        outer = sp;
}

static void leave(void)
{
    if (many_open)
        others -= !open_ones[--many_open].own;
}

/* The next handler, in the frame of the one that returns; in the application's own it is the outermost of others. */
static void follow(unsigned device, unsigned sp)
{
    struct opened *o = many_open ? &open_ones[many_open - 1] : NULL;
    if (!o || o->own) {
        leave();
        enter(device, 0, sp);
    } else {
        o->device = (uint8_t)device;
        o->settled = 0;
    }
}

/* How far one place lies below another, downwards; 0 where it does not. */
static uint32_t lies_below(unsigned place, unsigned from)
{
    unsigned bytes = (from - place) & 0xFFFF;
    return bytes < 0x8000 ? bytes : 0;
}

/* SP between two steps: that of the handler that is open. */
static void look(struct held *h, unsigned sp)
{
    struct opened *o = many_open ? &open_ones[many_open - 1] : NULL;
    uint32_t bytes;
    if (!o || !others)
        return;
    if (!o->settled) {
        o->settled = 1;
        o->sp = (uint16_t)sp;
    }
    bytes = lies_below(sp, o->sp);
    if (o->device < NO_DEVICE && bytes > h->most[o->device])
        h->most[o->device] = bytes;
    bytes = lies_below(sp, outer);
    if (!h->any || bytes > h->below) {
        h->below = bytes;
        h->lowest = sp;
    }
    h->any = 1;
}

static void take_record(struct held *h, const uint8_t *record)
{
    unsigned kind = record[XM23_TRACE_KIND], number = record[XM23_TRACE_NUMBER], sp = get_word(record, XM23_TRACE_SP);
    if (kind == XM23_KIND_EVENT)
        return;
    look(h, sp);
    if (kind == XM23_KIND_ACCEPT)
        enter(number, 0, sp);
    if (kind == XM23_KIND_TRAP)
        enter(NO_DEVICE, !others, sp);
    if (kind == XM23_KIND_FAULT)
        enter(NO_DEVICE, 0, sp);
    if (kind == XM23_KIND_CHAIN)
        follow(number, sp);
    if (kind == XM23_KIND_PULL)
        leave();
    if ((kind == XM23_KIND_ACCEPT || kind == XM23_KIND_CHAIN) && number < NO_DEVICE)
        h->entered[number] = 1;
}

void find_held(struct held *h, const struct paper *p, const struct machine *before)
{
    static uint8_t trace[XM23_TRACE_SIZE * MOST_RECORDS];
    static struct machine m;
    uint64_t n = p->steps, reply;
    memset(h, 0, sizeof *h);
    many_open = others = 0;
    memcpy(&m, before, sizeof m);
    do {
        reply = xm23_trace(m.memory, sizeof m.memory, m.record, sizeof m.record, p->event_bytes,
                           XM23_EVENT_SIZE * p->many_events, trace, sizeof trace, XM23_KINDS, n);
        for (uint32_t i = 0; i < XM23_TRACE_ADDED(reply); i++)
            take_record(h, trace + XM23_TRACE_SIZE * i);
        n -= XM23_RUN_STEPS(reply);
    } while (XM23_RUN_REASON(reply) == XM23_REASON_TRACE);
    look(h, get_word(m.record, XM23_RECORD_REGISTER(6)));
}
