/* Traces: xm23_trace. */
#include "host.h"

static uint8_t trace[XM23_TRACE_SIZE * 8], trace_before[sizeof trace];
static size_t trace_len;

static uint64_t traced(uint32_t kinds, uint64_t n)
{
    memset(trace, 0xC3, sizeof trace);
    memcpy(trace_before, trace, sizeof trace);
    memcpy(memory_before, memory, sizeof memory);
    memcpy(record_before, record, sizeof record);
    return xm23_trace(memory, memory_len, record, record_len, events, events_len, trace, trace_len, kinds, n);
}

/* The call is refused with the number alone, and every buffer is as it was. */
static void not_traced(const char *what, uint32_t kinds, uint64_t n, unsigned refusal)
{
    same(what, traced(kinds, n), refusal);
    same(what, (uint64_t)memcmp(memory, memory_before, sizeof memory), 0);
    same(what, (uint64_t)memcmp(record, record_before, sizeof record), 0);
    same(what, (uint64_t)memcmp(trace, trace_before, sizeof trace), 0);
}

/* A record's kind, number, address and value, and the bytes before the step. */
static void told(const char *what, size_t i, unsigned kind, unsigned number, unsigned address, unsigned value)
{
    const uint8_t *at = trace + XM23_TRACE_SIZE * i;
    same(what, at[XM23_TRACE_KIND], kind);
    same(what, at[XM23_TRACE_NUMBER], number);
    same(what, two(at + XM23_TRACE_ADDRESS), address);
    same(what, two(at + XM23_TRACE_VALUE), value);
}

/* Device 1 with ENA and IE, its handler at #2000; the program branches to itself at #1000; a tick at step 1. */
static void ticking(void)
{
    example();
    memory[2] = 0x11;
    put_two(memory + XM23_VECTORS + 4, 0x00A0);
    put_two(memory + XM23_VECTORS + 6, 0x2000);
    put_two(memory + 0x1000, 0x3FFF);
    put_two(record + XM23_RECORD_REGISTER(7), 0x1000);
    put_two(record + XM23_RECORD_PSW, 0);
    put_event(0, 1, 1, 0x42);
    events_len = XM23_EVENT_SIZE;
    trace_len = sizeof trace;
}

static void traces(void)
{
    uint64_t reply;
    ticking();
    reply = traced(XM23_KINDS, 2);
    same("traced", XM23_RUN_REFUSAL(reply), XM23_ACCEPTED);
    same("traced", XM23_RUN_REASON(reply), XM23_REASON_DONE);
    same("traced", XM23_RUN_STEPS(reply), 2);
    same("traced", XM23_TRACE_ADDED(reply), 3);
    told("a plain step", 0, XM23_KIND_PLAIN, 0, 0, 0);
    told("a tick", 1, XM23_KIND_EVENT, 1, XM23_EFFECT_TAKEN | XM23_EFFECT_RAISED, 0x42);
    told("accepted", 2, XM23_KIND_ACCEPT, 1, 0x2000, 0x00A0);
    same("PC before", two(trace + 2 * XM23_TRACE_SIZE + XM23_TRACE_PC), 0x1000);
    same("SP before", two(trace + 2 * XM23_TRACE_SIZE + XM23_TRACE_SP), 0x0800);
    same("PSW before", two(trace + 2 * XM23_TRACE_SIZE + XM23_TRACE_PSW), 0);
    same("step before", two(trace + 2 * XM23_TRACE_SIZE + XM23_TRACE_STEP), 1);
    same("the tail", (uint64_t)memcmp(trace + 48, trace_before + 48, sizeof trace - 48), 0);
    same("enough", XM23_TRACE_ENOUGH(2, 1), 48);

    ticking();
    reply = traced(XM23_KIND(XM23_KIND_EVENT), 2);
    same("events alone", XM23_TRACE_ADDED(reply), 1);
    told("events alone", 0, XM23_KIND_EVENT, 1, XM23_EFFECT_TAKEN | XM23_EFFECT_RAISED, 0x42);

    ticking();
    trace_len = XM23_TRACE_SIZE * 2;
    reply = traced(XM23_KINDS, 2);
    same("no room", XM23_RUN_REASON(reply), XM23_REASON_TRACE);
    same("no room", XM23_RUN_STEPS(reply), 1);
    same("no room", XM23_TRACE_ADDED(reply), 1);
    same("an event not applied", memory[2], 0x11);
    same("a frame not pushed", (uint64_t)memcmp(memory + 16, memory_before + 16, sizeof memory - 16), 0);

    ticking();
    trace_len = 0;
    same("no trace", traced(0, 5), (uint64_t)5 << 16);
}

static void refused_traces(void)
{
    ticking();
    trace_len = 15;
    not_traced("no whole record", XM23_KINDS, 1, XM23_REFUSED_TRACE);
    trace_len = 17;
    not_traced("a byte more", 0, 0, XM23_REFUSED_TRACE);
    trace_len = 16;
    not_traced("a kind that is none", XM23_KINDS + 1, 1, XM23_REFUSED_TRACE);
    not_traced("every bit", 0xFFFFFFFF, 1, XM23_REFUSED_TRACE);
    not_traced("steps", 0xFFFFFFFF, 1000001, XM23_REFUSED_STEPS);
    memory_len--;
    not_traced("memory", 0, 1000001, XM23_REFUSED_MEMORY);
    memory_len++;
    record_len--;
    not_traced("record", 0, 1, XM23_REFUSED_RECORD);
    record_len++;
    record[XM23_RECORD_HALTED] = 2;
    not_traced("record's bits", 0, 1, XM23_REFUSED_RECORD_BITS);
    record[XM23_RECORD_HALTED] = 0;
    events_len--;
    not_traced("events", 0, 1, XM23_REFUSED_EVENTS);
    events_len++;
    events[XM23_EVENT_DEVICE] = 8;
    not_traced("an event's fields", 0, 1, XM23_REFUSED_EVENT_FIELDS);
    events[XM23_EVENT_DEVICE] = 1;
    put_event(1, 0, 1, 0);
    events_len = 2 * XM23_EVENT_SIZE;
    not_traced("events' order", 0, 1, XM23_REFUSED_EVENT_ORDER);
    put_event(1, 1, 1, 0);
    not_traced("twins", 0, 1, XM23_REFUSED_EVENT_TWINS);
    same("nothing lent", xm23_trace(NULL, 0, NULL, 0, NULL, 0, NULL, 0, 0, 0), XM23_REFUSED_MEMORY);
}

void trace_calls(void)
{
    traces();
    refused_traces();
}
