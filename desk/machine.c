/* The one place that runs a machine, with a log as long as the run can need. */
#include "machine.h"

unsigned get_word(const uint8_t *bytes, unsigned at)
{
    return bytes[at] | (unsigned)bytes[at + 1] << 8;
}

uint32_t get_long(const uint8_t *bytes, unsigned at)
{
    return get_word(bytes, at) | (uint32_t)get_word(bytes, at + 2) << 16;
}

void put_word(uint8_t *bytes, unsigned at, unsigned value)
{
    bytes[at] = (uint8_t)value;
    bytes[at + 1] = (uint8_t)(value >> 8);
}

unsigned word_at(const uint8_t *memory, unsigned at)
{
    return get_word(memory, at & 0xFFFE);
}

/* Room for the log of a run, kept from one to the next. A step shows one byte at most. */
static uint8_t *log_of(uint64_t n, size_t *length)
{
    static uint8_t *log;
    static size_t room;
    *length = n <= XM23_MAX_STEPS ? XM23_LOG_SIZE * (size_t)n : 0;
    if (*length > room) {
        log = (uint8_t *)room_for(log, *length);
        room = *length;
    }
    return log;
}

/* What a log has: all of it, and each device's. */
static void take_log(const uint8_t *log, uint32_t many, struct outcome *o)
{
    for (uint32_t i = 0; i < many; i++, log += XM23_LOG_SIZE) {
        if (o->screen)
            add_bytes(o->screen, log + XM23_LOG_BYTE, 1);
        if (o->shown)
            add_bytes(&o->shown[log[XM23_LOG_DEVICE] % DEVICES], log + XM23_LOG_BYTE, 1);
    }
}

void run_machine(struct machine *m, const struct paper *p, uint64_t n, struct outcome *o)
{
    size_t length;
    uint8_t *log = log_of(n, &length);
    uint64_t reply = xm23_run(m->memory, sizeof m->memory, m->record, sizeof m->record, p->event_bytes,
                              XM23_EVENT_SIZE * p->many_events, log, length, &o->deepest, n);
    if (o->screen || o->shown)
        take_log(log, XM23_RUN_ADDED(reply), o);
    o->refusal = XM23_RUN_REFUSAL(reply);
    o->reason = XM23_RUN_REASON(reply);
    o->steps = XM23_RUN_STEPS(reply);
}
