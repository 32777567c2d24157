/* setup.h's commands, both ways. */
#include "setup.h"

#include <string.h>

enum { MEMORY = 65536, RECORD = 32, VECTORS = 0xFFC0 };

/* ---- commands to a setup */

struct reader {
    struct setup *s;
    uint16_t cursor;
    uint32_t step; /* of the newest event, from the count */
};

static void put_two(uint8_t *p, unsigned value)
{
    p[0] = (uint8_t)value;
    p[1] = (uint8_t)(value >> 8);
}

static void put_four(uint8_t *p, uint32_t value)
{
    put_two(p, value & 0xFFFF);
    put_two(p + 2, value >> 16);
}

/* A word at an address whose bit 0 is dropped, so that it may be a program's, a frame's or a vector's. */
static void put_word(struct setup *s, unsigned at, unsigned value)
{
    put_two(s->memory + (at & 0xFFFE), value);
}

static void start(struct setup *s)
{
    memset(s, 0, sizeof *s);
    s->memory_len = MEMORY;
    s->record_len = RECORD;
    s->log_len = 8 * 64;
    for (size_t i = 0; i < LONGEST_LOG; i++)
        s->log[i] = (uint8_t)(0x5A ^ i);
    s->n = 64;
    put_two(s->record + 12, 0x0800);
    put_two(s->record + 14, 0x1000);
    for (unsigned v = 0; v < 16; v++) {
        if (v < 8)
            s->memory[2 * v] = v & 1 ? 0x11 : 0x13;
        put_word(s, VECTORS + 4 * v, (1 + v % 7) << 5);
        put_word(s, VECTORS + 4 * v + 2, 0x2000 + 0x40 * v);
        put_word(s, 0x2000 + 0x40 * v, 0x4C2F); /* MOV LR,PC */
    }
}

static void fill(struct setup *s, uint64_t seed)
{
    seed = seed * 0x9E3779B97F4A7C15u + 1;
    for (size_t i = 0; i < MEMORY; i += sizeof seed) {
        seed ^= seed << 13;
        seed ^= seed >> 7;
        seed ^= seed << 17;
        memcpy(s->memory + i, &seed, sizeof seed);
    }
}

/* Whether a record of this step and this device stands at the list's end, among those of the same step. */
static int has_event(const struct setup *s, uint32_t step, unsigned device)
{
    uint8_t bytes[4];
    put_four(bytes, step);
    for (size_t i = s->events_len; i >= 8 && !memcmp(s->events + i - 8, bytes, 4); i -= 8)
        if (s->events[i - 4] == device)
            return 1;
    return 0;
}

/* One event record more, where there is room and the list has no such one: twins are made by BREAK alone. */
static void add_event(struct setup *s, uint32_t step, unsigned device, unsigned data)
{
    uint8_t *e = s->events + s->events_len;
    if (s->events_len + 8 > LONGEST_EVENTS || has_event(s, step, device))
        return;
    put_four(e, step);
    e[4] = (uint8_t)device;
    e[5] = (uint8_t)data;
    e[6] = e[7] = 0;
    s->events_len += 8;
}

/* n at the ends of what is accepted, and far beyond. A machine asked for so many steps is halted, as they are slow. */
static const uint64_t ends[8] = {1000000, 1000001, 0xFFFFFFFF, 0x100000000, 0x100000001, UINT64_MAX, 0, 999999};

static void break_n(struct setup *s, unsigned a, unsigned b)
{
    unsigned place = 24 + 8 * (a & 7) % 40;
    if (a & 8)
        s->n |= (uint64_t)b << place;
    else
        s->n = ends[a & 7];
    if (s->n >= 1024)
        s->record[21] = 1;
}

/*
 * Events on every device on each step after the last record's, up to 4,096 records, or 4,097 where `over` is set; or
 * the last record again and again where `twins` is.
 */
static void fill_list(struct setup *s, int over, int twins)
{
    uint8_t last[8] = {0};
    uint32_t step;
    if (s->events_len >= 8)
        memcpy(last, s->events + s->events_len / 8 * 8 - 8, 8);
    step = last[0] | (uint32_t)last[1] << 8 | (uint32_t)last[2] << 16 | (uint32_t)last[3] << 24;
    s->events_len = s->events_len / 8 * 8;
    for (unsigned i = 0; s->events_len < 8 * (4096u + !!over); i++) {
        if (!twins) {
            put_four(last, step + 1 + i / 8);
            last[4] = i % 8;
        }
        memcpy(s->events + s->events_len, last, 8);
        s->events_len += 8;
    }
}

/* Breaks a rule of refusal, or goes to its edge. */
static void break_rule(struct setup *s, unsigned what, unsigned a, unsigned b)
{
    if (what == 8) { /* a log of another length, whole records or not */
        s->log_len = (a | (size_t)b << 8) % (LONGEST_LOG + 1);
        return;
    }
    switch (what & 7) {
    case 0: /* memory of another length */
        s->memory_len = a & 1 ? (size_t)b : MEMORY - 8 + b % 16;
        break;
    case 1: /* a record of another length */
        s->record_len = b % (LONGEST_RECORD + 1);
        break;
    case 2: /* n at an end, or with any bits from bit 24 up */
        break_n(s, a, b);
        break;
    case 3: /* bytes too many or too few in the list */
        s->events_len = s->events_len / 8 * 8 + (s->events_len + 8 <= LONGEST_EVENTS ? b % 8 : 0);
        break;
    case 4: /* any byte of an event, the last first */
        if (s->events_len >= 8 * (size_t)(1 + a / 8))
            s->events[s->events_len / 8 * 8 - 8 * (1 + a / 8) + a % 8] = (uint8_t)b;
        break;
    case 5: /* a full list, or one too many, with twins or without */
        fill_list(s, a & 1, a & 2);
        break;
    case 6: /* the count so that with n it is at the limit, or some above or below */
        put_four(s->record + 22, (uint32_t)(0xFFFFFFFF - s->n + (a & 1 ? b % 4 : -(b % 4))));
        break;
    default: /* halted, or a mark above 1 */
        s->record[21] = (uint8_t)a;
    }
}

static void state_command(struct setup *s, unsigned kind, unsigned k, unsigned a, unsigned b)
{
    unsigned ab = a | b << 8;
    switch (kind) {
    case REGISTER:
        put_two(s->record + 2 * (k & 7), ab);
        break;
    case PSW:
        put_two(s->record + 16, ab & 0xE1FF);
        break;
    case STATE:
        s->record[18] = a & 0x7F;
        s->record[26 + (k & 3)] = (uint8_t)b;
        break;
    case COUNT:
        put_two(s->record + 22 + 2 * (k & 1), ab);
        break;
    case STEPS:
        s->n = ab & 0x3FF;
        break;
    case SLICE:
        s->slice = ab;
        break;
    case RAW:
        s->record[k + 16 * (a & 1)] = (uint8_t)b;
        break;
    default:
        break_rule(s, k, a, b);
    }
}

static uint32_t count_of(const struct setup *s)
{
    const uint8_t *p = s->record + 22;
    return p[0] | p[1] << 8 | p[2] << 16 | (uint32_t)p[3] << 24;
}

static void memory_command(struct reader *r, unsigned kind, unsigned k, unsigned a, unsigned b)
{
    struct setup *s = r->s;
    switch (kind) {
    case CODE:
        put_word(s, r->cursor, a | b << 8);
        r->cursor = (uint16_t)(r->cursor + 2);
        break;
    case AT:
        r->cursor = (uint16_t)(a | b << 8);
        break;
    case BYTE:
        s->memory[r->cursor++] = (uint8_t)a;
        break;
    case VECTOR:
        put_word(s, VECTORS + 4 * k, a);
        put_word(s, VECTORS + 4 * k + 2, 257 * b);
        break;
    case DEVICE:
        s->memory[2 * (k & 7)] = (uint8_t)a;
        s->memory[2 * (k & 7) + 1] = (uint8_t)b;
        break;
    case EVENT:
        r->step += a;
        add_event(s, count_of(s) + r->step, k & 7, b);
        break;
    case FILL:
        fill(s, a | b << 8);
        break;
    default:
        memset(s->memory, 0, MEMORY);
    }
}

void unpack(struct setup *s, const uint8_t *commands, size_t size)
{
    struct reader r = {s, 0x1000, 0};
    start(s);
    for (size_t i = 0; i + 3 <= size; i += 3) {
        unsigned kind = commands[i] & 15, k = commands[i] >> 4, a = commands[i + 1], b = commands[i + 2];
        if (kind <= BYTE || kind == VECTOR || kind == DEVICE || kind == EVENT || kind == FILL || kind == EMPTY)
            memory_command(&r, kind, k, a, b);
        else
            state_command(s, kind, k, a, b);
    }
}

/* ---- an input to commands */

struct writer {
    uint8_t *at, *end;
};

static void put(struct writer *w, unsigned kind, unsigned k, unsigned ab)
{
    if (w->end - w->at >= 3) {
        w->at[0] = (uint8_t)(kind | k << 4);
        w->at[1] = (uint8_t)ab;
        w->at[2] = (uint8_t)(ab >> 8);
    }
    w->at += 3;
}

static unsigned two(const uint8_t *p)
{
    return p[0] | (unsigned)p[1] << 8;
}

/* The words that are not 0, the cursor moved where it is not there already. */
static void pack_memory(struct writer *w, const uint8_t *memory)
{
    unsigned cursor = 0x1000;
    put(w, EMPTY, 0, 0);
    for (unsigned at = 0; at < MEMORY; at += 2) {
        if (!two(memory + at))
            continue;
        if (at != cursor)
            put(w, AT, 0, at);
        put(w, CODE, 0, two(memory + at));
        cursor = (at + 2) & 0xFFFF;
    }
}

static void pack_record(struct writer *w, const uint8_t *record)
{
    for (unsigned i = 0; i < 8; i++)
        if (two(record + 2 * i) || i > 5)
            put(w, REGISTER, i, two(record + 2 * i));
    put(w, PSW, 0, two(record + 16));
    for (unsigned i = 0; i < 4; i++)
        if (i == 0 || record[26 + i])
            put(w, STATE, i, record[18] | (unsigned)record[26 + i] << 8);
    put(w, COUNT, 0, two(record + 22));
    put(w, COUNT, 1, two(record + 24));
    if (record[21])
        put(w, BREAK, 7, record[21]);
}

/* Events at most 255 steps apart; the rest of the list is left out. */
static void pack_events(struct writer *w, const uint8_t *events, size_t size, uint32_t count)
{
    for (size_t i = 0; i + 8 <= size && i < 800; i += 8) {
        uint32_t step = two(events + i) | (uint32_t)two(events + i + 2) << 16;
        if (step - count > 255)
            return;
        put(w, EVENT, events[i + 4] & 7, (step - count) | (unsigned)events[i + 5] << 8);
        count = step;
    }
}

size_t pack(uint8_t *commands, size_t room, const uint8_t *input, size_t size)
{
    struct writer w = {commands, commands + room};
    const uint8_t *record = input + 4, *memory = record + RECORD, *events = memory + MEMORY;
    uint32_t n, count;
    if (size < 4 + RECORD + MEMORY)
        return 0;
    n = two(input) | (uint32_t)two(input + 2) << 16;
    count = two(record + 22) | (uint32_t)two(record + 24) << 16;
    pack_memory(&w, memory);
    pack_record(&w, record);
    pack_events(&w, events, size - 4 - RECORD - MEMORY, count);
    if (n >= 1024 && n <= 1000000)
        return 0;
    put(&w, n < 1024 ? STEPS : BREAK, n < 1024 ? 0 : 2, n < 1024 ? n : 1);
    return w.at <= w.end ? (size_t)(w.at - commands) : 0;
}
