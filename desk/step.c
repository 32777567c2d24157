/* A step of a walk in words: the instruction or what else it was, and what it left. */
#include <string.h>

#include "walk.h"
#include "word.h"

const char *fault_name(unsigned fault)
{
    return fault == 8 ? "illegal word" : fault == 9 ? "odd address" : "priority";
}

void add_act(struct text *t, unsigned kind, unsigned number)
{
    switch (kind) {
    case XM23_KIND_PULL: addf(t, "return: CEX, PSW, LR, PC pulled"); break;
    case XM23_KIND_CHAIN: addf(t, "return, chained to the line of device %u", number); break;
    case XM23_KIND_ACCEPT: addf(t, "line of device %u accepted", number); break;
    case XM23_KIND_SLEEP: addf(t, "asleep"); break;
    case XM23_KIND_FAULT: addf(t, "fault %u, %s", number, fault_name(number)); break;
    case XM23_KIND_HALT: addf(t, "halt: fault %u, %s, with FLT set", number, fault_name(number)); break;
    case XM23_KIND_SKIP: addf(t, "skipped by CEX"); break;
    case XM23_KIND_TRAP: addf(t, "SVC by vector %u", number); break;
    default: addf(t, "executed");
    }
}

void add_what(struct text *t, const struct step *s)
{
    if (s->fetched)
        add_instruction(t, step_pc(s), s->word);
    if (s->kind >= XM23_KIND_PLAIN)
        return;
    addf(t, "%s", s->fetched ? "; " : "");
    add_act(t, s->kind, s->number);
}

static void separate(struct text *t, size_t from)
{
    if (t->length > from)
        addf(t, ", ");
}

/* R0 to SP, PSW and CEX that are others than before. */
static void add_registers(struct text *t, size_t from, const struct step *s)
{
    static const char *const names[] = {"R0", "R1", "R2", "R3", "R4", "LR", "SP", "", "PSW", "CEX"};
    for (unsigned i = 0; i < 10; i++) {
        unsigned value = get_word(s->after, 2 * i);
        if (i == 7 || value == get_word(s->before, 2 * i))
            continue;
        separate(t, from);
        addf(t, i == 9 ? "%s %02X" : "%s %04X", names[i], value);
    }
}

/* Bytes stored outside the device bytes, or pushed, whether they are others or not. */
static void add_stored(struct text *t, size_t from, const struct step *s)
{
    if (!s->stored || stores_device(s))
        return;
    separate(t, from);
    addf(t, "%04X:", s->at);
    for (unsigned i = 0; i < s->stored; i++)
        addf(t, " %02X", s->bytes[i]);
}

/* Device bytes that are others than before, by the step or by an event, and those that were stored. */
static void add_devices(struct text *t, size_t from, const struct step *s)
{
    for (unsigned i = 0; i < 16; i++) {
        if (!device_written(s, i))
            continue;
        separate(t, from);
        addf(t, "device %u %s %02X", i / 2, i % 2 ? "data" : "status", s->devices[i]);
    }
}

void add_left(struct text *t, const struct step *s)
{
    size_t from = t->length;
    add_registers(t, from, s);
    add_stored(t, from, s);
    add_devices(t, from, s);
}
